/*
 * Directives: for the items the call of the table that decides, and what follows from what it tells that each did.
 */
#include <inttypes.h>
#include <stdio.h>
#include <stdlib.h>
#include <string.h>

#include "inner.h"

/* ---- What the table is told ---- */

bool lwa_copies_in(uint32_t clause)
{
    return clause == LW_COPY || clause == LW_COPYIN;
}

static bool enters(const lwa_directive *d)
{
    return d->way == LWA_DATA || d->way == LWA_ENTER_DATA;
}

/* Whether an item maps its section where that is absent. */
static bool may_map(const lwa_directive *d, const lwa_item *item)
{
    return enters(d) && item->clause != LW_NO_CREATE && item->clause != LW_PRESENT;
}

/* A section that is absent is told at new table addresses where it is to be mapped, and else with one address that is
   never mapped. A section that is partly present is told so: with an address of a block, and the one before it. */
static void tell_section(const lwa_directive *d, lwa_item *item)
{
    lwa_block *met = lwa_meets(item->at, item->len);
    const bool maps = met == NULL && may_map(d, item);

    if (item->len > UINTPTR_MAX - item->at
        || (maps && lwa_copies_in(item->clause) && !lwa_is_memory(item->at, item->len))) {
        item->told.start = lwa_outside();
        item->told.len = item->len;
    } else if (maps) {
        item->taken = true;
        item->told.start = lwa_take_addresses(item->at, item->len);
        item->told.len = item->len;
    } else if (met == NULL) {
        item->told.start = LWA_NOWHERE;
        item->told.len = 1;
    } else if (!lwa_has(met, item->at, item->len)) {
        item->told.start = met->told - 1;
        item->told.len = 2;
    } else {
        item->block = met;
        item->told.start = met->told + (item->at - met->at);
        item->told.len = item->len;
    }
}

bool lwa_is_pointer(const lwa_item *item)
{
    return item->clause == LW_ATTACH || item->clause == LW_DETACH;
}

static void tell(const lwa_directive *d, lwa_item *item)
{
    item->told = (lw_item){item->clause, LW_HOST_BASE, 0, 0};
    item->block = NULL;
    if (lwa_is_pointer(item)) {
        item->told.start = lwa_told_pointer(item);
        return;
    }
    if (item->len != 0) {
        tell_section(d, item);
    }
    if (item->pointer != 0) {
        item->told.pointer = lwa_told_pointer(item);
    }
}

/* ---- After the call ---- */

/* The bytes of a block to which nothing was copied. */
#define NEW_BYTE 0xa5

static void note(const lwa_item *item, int first, int second)
{
    lwa_note(first, item->block, item->at, item->len);
    lwa_note(second, item->block, item->at, item->len);
}

/* Does what the table has told. At the end of a region it tells of its start what is copied where the mapping ends. */
static void after(const lwa_directive *d, lwa_item *item)
{
    const bool out = item->did.way == LW_OUT || d->way == LWA_END_DATA;

    if (d->way == LWA_DATA) {
        item->back = item->did.back != 0;
    } else if (d->way == LWA_END_DATA && item->did.step == LW_ENDED_RANGE && item->back) {
        item->did.way = LW_OUT;
    }
    if (item->did.step == LW_BORN) {
        item->taken = false;
        item->block = lwa_born(item, d->device);
        if (item->did.way == 0 || d->queue != LW_NO_QUEUE_GIVEN) {
            memset(item->block->bytes, NEW_BYTE, item->len);
        }
        item->block->open = item->did.way == 0 && lwa_is_open(LWA_OPEN_FILL);
        LWA_CHECK(lwa_behind_born(item->block, false));
        note(item, acc_ev_alloc, acc_ev_create);
    }
    if (item->did.way != 0) {
        note(item, out ? acc_ev_enqueue_download_start : acc_ev_enqueue_upload_start,
             out ? acc_ev_enqueue_download_end : acc_ev_enqueue_upload_end);
        if (d->queue != LW_NO_QUEUE_GIVEN) {
            lwa_put_waiting(d->queue, item->block, item->at, item->len, out);
        } else {
            item->block->meets |= item->block->waiting != 0 && lwa_is_open(LWA_OPEN_QUEUES);
            lwa_copy(item->block, item->at, item->len, out);
        }
    }
    lwa_aimed(item);
}

/* ---- The call ---- */

/* The most items of one directive of the table, which judges each in what those before it leave. */
#define MOST_ITEMS 8

static lw_async async_of(const lwa_directive *d)
{
    return d->queue == LW_NO_QUEUE_GIVEN ? LW_ASYNC_SYNC : lw_queue((int64_t)d->queue);
}

static uint32_t ask(const lwa_directive *d, size_t first, size_t end, lw_fault *fault)
{
    static lw_item told[MOST_ITEMS];
    lwa_item *items = d->items.at;
    uint32_t status;

    for (size_t i = first; i < end && d->way != LWA_END_DATA; i++) {
        told[i - first] = items[i].told;
    }
    lwa_room();
    switch (d->way) {
    case LWA_DATA:
        status = lw_enter(lwa_table(), 0, told, end - first, &items[first].region, fault);
        for (size_t i = first + 1; i < end; i++) {
            items[i].region = items[first].region;
        }
        return status;
    case LWA_END_DATA: return lw_exit(lwa_table(), items[first].region, fault);
    case LWA_ENTER_DATA: return lw_enter_data(lwa_table(), 0, told, end - first, async_of(d), fault);
    case LWA_EXIT_DATA: return lw_exit_data(lwa_table(), 0, told, end - first, d->option, async_of(d), fault);
    case LWA_UPDATE: return lw_update(lwa_table(), 0, told, end - first, d->option, async_of(d), fault);
    }
    abort();
}

/* Whether items are to be told again: a block was lent, or the queue was full, and has room now. */
static bool is_to_wait(const lwa_directive *d, uint32_t status)
{
    return lwa_is_lent(status) || (status == LW_QUEUE_FULL && lwa_step(d->queue));
}

static void give_back(lwa_directive *d, size_t first, size_t end)
{
    for (lwa_item *item = d->items.at + first; item < d->items.at + end; item++) {
        if (item->taken) {
            lwa_give_addresses(item->told.start, item->len);
            item->taken = false;
        }
    }
}

static bool has_pointer(const lwa_item *item)
{
    return lwa_is_pointer(item) || item->pointer != 0;
}

/* Whether what one item names, or the block that has it, meets what the other does. */
static bool meet(const lwa_item *a, const lwa_item *b)
{
    const uintptr_t from = a->block != NULL ? a->block->at : a->at, other = b->block != NULL ? b->block->at : b->at;
    const size_t len = a->block != NULL ? a->block->len : a->len, other_len = b->block != NULL ? b->block->len : b->len;

    return (from < other + other_len && other < from + len)
        || (a->block != NULL && b->block != NULL && a->block->root == b->block->root);
}

/* Whether an item can be told with those before it: none names the block of another, or has a pointer. */
static bool may_join(const lwa_item *first, const lwa_item *item)
{
    for (const lwa_item *other = first; other < item; other++) {
        if (has_pointer(other) || meet(item, other)) {
            return false;
        }
    }
    return !has_pointer(item);
}

/* Tells items from one on, and answers the end of those that are told together. */
static size_t tell_some(lwa_directive *d, size_t first)
{
    lwa_item *items = d->items.at;
    size_t end = first;

    do {
        tell(d, &items[end]);
        if (!may_join(&items[first], &items[end]) && end != first) {
            give_back(d, end, end + 1);
            return end;
        }
        end++;
    } while (end < d->items.count && end - first < MOST_ITEMS);
    return end;
}

static void finish(lwa_directive *d, size_t i)
{
    lwa_item *item = &d->items.at[i];

    lwa_watch_item(d, i);
    after(d, item);
    lwa_log_item(d, i);
    LWA_CHECK(lwa_check_item(d, item));
    if (d->way == LWA_DATA) {
        lwa_hold(item->block);
    }
    if (item->did.step == LW_ENDED_RANGE) {
        note(item, acc_ev_delete, acc_ev_free);
        lwa_ended(item->block->root);
    }
    if (d->way == LWA_END_DATA) {
        lwa_let_go(item->block);
    }
}

/* Whether a refusal names an item. */
static bool names_item(uint32_t status)
{
    return status == LW_OUT_OF_HOST || status == LW_MISALIGNED || status == LW_PARTLY_PRESENT
        || status == LW_NOT_PRESENT || status == LW_COUNTER_FULL || status == LW_DEVICE_FULL;
}

_Noreturn static void refuse(const lwa_directive *d, const lw_fault *fault)
{
    const lwa_item *item = &d->items.at[fault->item];
    char text[LWA_ITEM], name[LWA_NAME];
    size_t used;

    if (!names_item(fault->status)) {
        lwa_refuse(fault, "");
    }
    lwa_item_text(item, text);
    used = strlen(text);
    if (!lwa_is_pointer(item) && lwa_variable_at(item->at, item->len, name)) {
        snprintf(text + used, sizeof text - used, ", %zu bytes at %#" PRIxPTR, item->len, item->at);
    }
    lwa_refuse(fault, text);
}

/* Some items of a directive from one on; those of a region's end are told already. Answers the end of them, or 0 where
   there was no room on the device, or in shadow mode where they were refused. */
static size_t act(lwa_directive *d, size_t first, size_t end)
{
    static lw_item_did dids[MOST_ITEMS];
    uint32_t status;
    lw_fault fault;

    for (bool again = true; again;) {
        if (d->way != LWA_END_DATA) {
            end = tell_some(d, first);
        }
        for (size_t i = first; i < end && enters(d); i++) {
            lwa_aim(&d->items.at[i]);
        }
        status = ask(d, first, end, &fault);
        if (status != LW_DONE) {
            give_back(d, first, end);
        }
        again = is_to_wait(d, status);
    }
    fault.item += first;
    if (status == LW_DEVICE_FULL && d->may_be_full) {
        lwa_log_refused(&fault);
        return 0;
    }
    lwa_script_items(d, first, end, status == LW_DONE);
    if (status != LW_DONE && lwa_may_refuse(&fault)) {
        return 0;
    }
    if (status != LW_DONE) {
        refuse(d, &fault);
    }
    lwa_must(lw_dids(lwa_table(), dids, end - first), &fault);
    for (size_t i = first; i < end; i++) {
        const size_t at = d->way == LWA_END_DATA ? first + end - 1 - i : i;

        d->items.at[at].did = dids[at - first];
        finish(d, at);
    }
    return end;
}

/* At the end of a region the last items first, those of one region of the table together. */
static bool act_on_all(lwa_directive *d)
{
    const lwa_item *items = d->items.at;
    size_t first = 0, end = d->items.count;
    bool done = true;

    lwa_log_directive(d);
    if (d->way == LWA_END_DATA) {
        for (; end != 0; end = first) {
            for (first = end - 1; first != 0 && items[first - 1].region == items[first].region; first--) {
            }
            act(d, first, end);
        }
    } else {
        for (; first < d->items.count && done; first = done ? end : first) {
            end = act(d, first, 0);
            done = end != 0;
        }
        d->items.count = first;
    }
    lwa_log_region(d);
    return done;
}

/* ---- Directives ---- */

bool lwa_direct(lwa_directive *d)
{
    const bool done = act_on_all(d);

    rattle_dealloc(d->items.at);
    return done;
}

/* A region of no item is one of an item that does nothing, since a kernel wants one. */
lwa_region *lwa_enter(lwa_directive *d)
{
    lwa_region *region = lwa_piece(sizeof *region);

    d->queue = LW_NO_QUEUE_GIVEN;
    if (d->items.count == 0) {
        lwa_add_item(&d->items, LW_CREATE, 0, 0);
    }
    act_on_all(d);
    *region = (lwa_region){.in_table = true, .directive = *d};
    region->directive.from = lwa_from();
    region->directive.way = LWA_END_DATA;
    return region;
}

void lwa_exit(lwa_region *region)
{
    LWA_CHECK(lwa_check_region(region->directive.from));
    act_on_all(&region->directive);
    rattle_dealloc(region->directive.items.at);
    rattle_dealloc(region);
}
