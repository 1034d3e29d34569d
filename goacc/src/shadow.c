/*
 * Shadow mode (LAMWIEST_SHADOW): the program runs on the runtime that it is linked with, and the table beside it. Each
 * call goes to the table, then to the runtime, and then both are compared: what is present, where it is on the device,
 * the device's bytes, and the host's. What the runtime has is asked by its own acc_is_present, acc_deviceptr and
 * acc_memcpy_from_device.
 *
 * No byte of the program is written here. A block has a copy of the bytes that the table gives the device; behind a
 * kernel, and where OpenACC leaves them open, they are those of the runtime.
 */
#define _GNU_SOURCE
#include <dlfcn.h>
#include <inttypes.h>
#include <pthread.h>
#include <stdio.h>
#include <stdlib.h>
#include <string.h>

#include "inner.h"

/* What is compared behind a call: an item of a directive, a copy that waited in a queue, or a block. */
typedef struct watched {
    enum { ITEM, COPY, BLOCK } kind;
    size_t number; /* of the item, or of the queue */
    lwa_item item;
    uintptr_t at; /* the block that has it, or its section where that is absent */
    size_t len;
    uint8_t *host; /* the host's bytes before the runtime's call, or NULL where they are not compared */
} watched;

/* Host bytes that the runtime writes: what the table has for them, or NULL. */
typedef struct expected {
    uintptr_t at;
    size_t len;
    uint8_t *bytes;
    size_t by; /* the place of what writes them among what is watched */
} expected;

bool lwa_shadow;
_Thread_local bool lwa_in_runtime;

static bool goes_on;
static bool strict[LWA_OPEN];
static uint64_t passed_over[LWA_OPEN], compared, differences;
static _Atomic bool has_device, has_none;
const char *const lwa_open_names[LWA_OPEN + 1] = {"fill", "places", "queues", "pointers"};

/* Whether more than one thread has called: then another may write host bytes that no clause names. */
static bool has_threads;

/* The call of this thread. */
static _Thread_local struct {
    watched *list;
    size_t count, room;
    expected *host;
    size_t host_count, host_room;
    lw_fault refused;
    uintptr_t own, came;
    bool aims_late; /* a pointer of a directive with async, which the table has aimed at once */
    bool ends_kernel;
} call;

/* The kernels that run now. */
static size_t kernels;

/* ---- The runtime ---- */

/* A program that takes all it calls from this library need not be linked with the runtime. */
#define RUNTIME "libgomp.so.1"

void *lwa_next(const char *name)
{
    void *found = dlsym(RTLD_NEXT, name);
    void *runtime = found == NULL ? dlopen(RUNTIME, RTLD_LAZY) : NULL;

    if (runtime != NULL) {
        found = dlsym(runtime, name);
    } else if (found == NULL) {
        lwa_unserved("the runtime cannot be loaded: %s", dlerror());
    }
    if (found == NULL) {
        lwa_unserved("the runtime has no %s", name);
    }
    return found;
}

void lwa_start_shadow(void)
{
    const char *word = getenv("LAMWIEST_SHADOW"), *named = getenv("LAMWIEST_STRICT");

    lwa_shadow = lwa_is_on("LAMWIEST_SHADOW");
    goes_on = lwa_shadow && strcmp(word, "all") == 0;
    for (int what = 0; what < LWA_OPEN; what++) {
        strict[what] = named != NULL && strstr(named, lwa_open_names[what]) != NULL;
    }
}

bool lwa_has_device(bool has)
{
    *(has ? &has_device : &has_none) = true;
    return has;
}

bool lwa_is_open(lwa_open what)
{
    const bool passes = lwa_shadow && !strict[what];

    passed_over[what] += passes;
    return passes;
}

/* ---- Differences ---- */

/* Tells a difference, of what is watched or of the call. */
__attribute__((format(printf, 2, 3))) static void differ(const watched *w, const char *format, ...)
{
    char text[512];
    size_t used = 0;
    va_list words;

    if (w != NULL && w->kind != BLOCK) {
        used = (size_t)snprintf(text, sizeof text, "%s %zu %s(%#" PRIxPTR ":%zu): ",
                                w->kind == ITEM ? "item" : "queue", w->number, lwa_clause_name(w->item.clause),
                                w->item.at, w->item.len);
    }
    va_start(words, format);
    vsnprintf(text + used, sizeof text - used, format, words);
    va_end(words);
    differences++;
    if (!goes_on) {
        lwa_in_runtime = false;
        lwa_end_program(text);
    }
    lwa_say(text);
}

bool lwa_may_refuse(const lw_fault *fault)
{
    if (!lwa_shadow || (fault->status != LW_NOT_PRESENT && fault->status != LW_PARTLY_PRESENT)) {
        return false;
    }
    call.refused = *fault;
    return true;
}

bool lwa_has_refused(void)
{
    return call.refused.status != LW_DONE;
}

uintptr_t lwa_answer(uintptr_t own, uintptr_t came)
{
    call.own = own;
    call.came = came;
    return came;
}

/* ---- What is watched ---- */

static void watch(const watched *w, bool host)
{
    static pthread_t first;

    if (compared++ == 0) {
        first = pthread_self();
    }
    has_threads |= !pthread_equal(first, pthread_self());
    call.list = lwa_grown(call.list, call.count, &call.room, sizeof *call.list);
    call.list[call.count] = *w;
    if (host && !has_threads && w->len <= lwa_limits.host && lwa_is_memory(w->at, w->len)) {
        call.list[call.count].host = memcpy(lwa_memory(NULL, w->len), (const void *)w->at, w->len);
    }
    call.count++;
}

/* A queue may write the host's bytes of a block, of which copies wait, at any time. */
static void watch_in(watched *w, const lwa_block *block)
{
    w->at = block != NULL ? block->at : w->item.at;
    w->len = block != NULL ? block->len : w->item.len;
    if (w->len != 0) {
        watch(w, block == NULL || (lwa_is_of_program(block) && block->waiting == 0));
    }
}

void lwa_watch_item(const lwa_directive *d, size_t i)
{
    const lwa_item *item = &d->items.at[i];
    watched w;

    if (!lwa_shadow) {
        return;
    }
    w = (watched){.kind = ITEM, .number = i, .item = *item};
    if (item->did.aim != 0) {
        call.aims_late |= d->queue != LW_NO_QUEUE_GIVEN;
        w.item.len = LWA_POINTER;
        w.item.at = lwa_is_pointer(item) ? item->at : item->pointer;
        watch_in(&w, lwa_inside(w.item.at, LWA_POINTER));
    }
    w.item = *item;
    watch_in(&w, item->block);
    if (d->queue != LW_NO_QUEUE_GIVEN && item->did.way != 0) {
        free(call.list[call.count - 1].host);
        call.list[call.count - 1].host = NULL;
    }
}

void lwa_watch_copy(uint64_t queue, const lwa_block *block, uintptr_t at, size_t len, bool out)
{
    const uint32_t clause = out ? LW_SELF : LW_DEVICE;

    if (lwa_shadow) {
        watch(&(watched){.kind = COPY, .number = queue, .item = {.clause = clause, .at = at, .len = len},
                         .at = block->at, .len = block->len}, false);
    }
}

void lwa_watch_block(lwa_block *block)
{
    if (lwa_shadow) {
        watch_in(&(watched){.kind = BLOCK}, block);
    }
}

void lwa_expect(uintptr_t at, size_t len, const uint8_t *bytes)
{
    uint8_t *kept = bytes != NULL ? memcpy(lwa_memory(NULL, len), bytes, len) : NULL;

    call.host = lwa_grown(call.host, call.host_count, &call.host_room, sizeof *call.host);
    call.host[call.host_count++] = (expected){at, len, kept, call.count - 1};
}

void lwa_read_expected(const lwa_block *block, uintptr_t at, size_t len, uint8_t *to)
{
    memcpy(to, (const void *)at, len);
    for (size_t i = 0; i < call.host_count; i++) {
        const expected *e = &call.host[i];
        const uintptr_t from = e->at > at ? e->at : at, until = e->at + e->len < at + len ? e->at + e->len : at + len;

        if (from < until && e->bytes != NULL) {
            memcpy(to + (from - at), e->bytes + (from - e->at), until - from);
        } else if (from < until) {
            block->root->open = true;
        }
    }
}

/* ---- The comparison ---- */

/* Sections around an item: whether each is present, for the table and for the runtime. */
static bool is_same_presence(const watched *w)
{
    const struct {
        uintptr_t at;
        size_t len;
    } asked[] = {{w->at, w->len}, {w->item.at, w->item.len}, {w->at - 1, 1}, {w->at + w->len, 1}, {w->at, w->len + 1}};

    for (size_t i = 0; i < sizeof asked / sizeof *asked; i++) {
        const lwa_block *block = lwa_inside(asked[i].at, asked[i].len);
        const bool own = lwa_is_of_program(block);
        bool came;

        if (asked[i].len == 0 || (block != NULL && block->apart)) {
            continue;
        }
        came = LWA_NEXT(acc_is_present)((void *)asked[i].at, asked[i].len) != 0;
        if (own != came) {
            differ(w, "presence of %#" PRIxPTR ":%zu: the table has %s, the runtime %s", asked[i].at, asked[i].len,
                   own ? "yes" : "no", came ? "yes" : "no");
            return false;
        }
    }
    return true;
}

/* Asks where a block is on the runtime's device, and whether it is there still. */
static void compare_place(const watched *w, lwa_block *block)
{
    const uintptr_t came = (uintptr_t)LWA_NEXT(acc_deviceptr)((void *)block->at);

    if (block->device == 0 && came != block->place && !lwa_is_open(LWA_OPEN_PLACES)) {
        differ(w, "device address: the table has %#" PRIx64 ", the runtime %#" PRIxPTR, block->place, came);
    } else if (block->device != 0 && came != block->device) {
        differ(w, "device address: the table has %#" PRIxPTR ", the runtime %#" PRIxPTR, block->device, came);
    }
    block->device = came;
}

/* The block of what is watched, where the runtime has it too. */
static lwa_block *find(const watched *w)
{
    lwa_block *block = lwa_inside(w->at, w->len);

    return block != NULL && !block->apart ? block : NULL;
}

static void compare_presence(const watched *w)
{
    lwa_block *block = find(w);
    const bool is_same = is_same_presence(w);

    if (block != NULL) {
        block->apart = !is_same;
    }
    if (is_same && lwa_is_of_program(block)) {
        compare_place(w, block);
    }
}

/* Tells the first of some bytes that differs. at: the host's address of the first byte. */
static void compare_bytes(const watched *w, const char *whose, uintptr_t at, const uint8_t *own, const uint8_t *came,
                          size_t len)
{
    size_t i = 0;

    while (i < len && own[i] == came[i]) {
        i++;
    }
    if (i < len) {
        differ(w, "%s byte %td: the table has 0x%02x, the runtime 0x%02x", whose,
               (ptrdiff_t)(at + i - (w->kind == BLOCK ? w->at : w->item.at)), own[i], came[i]);
    }
}

/* The device has the address of an attached pointer's target. */
static bool is_same_pointer(const watched *w, const lwa_block *block, const uint8_t *there)
{
    for (size_t i = 0; i < block->pointer_count; i++) {
        lwa_pointer *p = &block->pointers[i];
        uint8_t *own = block->bytes + (p->at - block->at);
        uintptr_t came;

        memcpy(&came, there + (p->at - block->at), LWA_POINTER);
        if (p->open) {
            memcpy(own, &came, LWA_POINTER);
        } else if (memcmp(own, &came, LWA_POINTER) != 0) {
            differ(w, "attached pointer at %#" PRIxPTR ": the table has %#" PRIxPTR ", the runtime %#" PRIxPTR, p->at,
                   p->device, came);
            return false;
        }
        p->open = false;
    }
    return true;
}

/* Nothing writes there now. */
static bool is_readable(const lwa_block *block)
{
    return block->device != 0 && block->waiting == 0 && block->root->waiting == 0 && kernels == 0;
}

static void compare_device(const watched *w)
{
    lwa_block *block = find(w);
    uint8_t *there;

    if (block == NULL || !is_readable(block)) {
        return;
    }
    there = lwa_memory(NULL, block->len);
    LWA_NEXT(acc_memcpy_from_device)(there, (void *)block->device, block->len);
    if (!block->root->open && !block->root->given && is_same_pointer(w, block, there)) {
        compare_bytes(w, "device", block->at, block->bytes, there, block->len);
    }
    if (block->root == block) {
        block->open = false;
    }
    memcpy(block->bytes, there, block->len);
    free(there);
}

/* Behind a kernel the table's bytes are those of the device. */
static void take_over(lwa_block *block)
{
    block->root->open = true;
    if (!block->part && !block->apart && is_readable(block)
        && (!lwa_is_of_program(block) || LWA_NEXT(acc_is_present)((void *)block->at, block->len) != 0)) {
        LWA_NEXT(acc_memcpy_from_device)(block->bytes, (void *)block->device, block->len);
        block->open = false;
    }
}

void lwa_kernel_starts(void)
{
    kernels++;
}

void lwa_kernel_ended(void)
{
    kernels--;
    call.ends_kernel = true;
}

/* The bytes that the runtime had to write are the table's, and all others of the blocks are as they were. */
static void compare_host(void)
{
    for (size_t i = 0; i < call.host_count; i++) {
        const expected *e = &call.host[i];

        if (e->bytes != NULL) {
            compare_bytes(&call.list[e->by], "host", e->at, e->bytes, (const uint8_t *)e->at, e->len);
        }
    }
    for (size_t i = 0; i < call.count; i++) {
        const watched *w = &call.list[i];

        for (size_t k = 0; w->host != NULL && k < call.host_count; k++) {
            const expected *e = &call.host[k];
            const uintptr_t from = e->at > w->at ? e->at : w->at;
            const uintptr_t until = e->at + e->len < w->at + w->len ? e->at + e->len : w->at + w->len;

            if (from < until) {
                memcpy(w->host + (from - w->at), (const void *)from, until - from);
            }
        }
        if (w->host != NULL) {
            compare_bytes(w, "host", w->at, w->host, (const uint8_t *)w->at, w->len);
        }
    }
}

static void compare_all(void)
{
    char text[LWA_REFUSAL];

    if (lwa_has_refused()) {
        lwa_refusal_text(&call.refused, text);
        differ(NULL, "the table has %s, the runtime goes on", text);
    }
    if (call.own != call.came) {
        differ(NULL, "answer: the table has %#" PRIxPTR ", the runtime %#" PRIxPTR, call.own, call.came);
    }
    if (call.aims_late) {
        LWA_NEXT(acc_wait_all)();
    }
    if (call.ends_kernel) {
        lwa_each_block(take_over);
    }
    if (call.count != 0 && lwa_on == lwa_chosen_device()) {
        for (size_t i = 0; i < call.count; i++) {
            compare_presence(&call.list[i]);
        }
        for (size_t i = 0; i < call.count; i++) {
            if (call.list[i].item.did.aim != 0) {
                lwa_aimed_late(&call.list[i].item);
            }
        }
        for (size_t i = 0; i < call.count; i++) {
            compare_device(&call.list[i]);
        }
    }
    compare_host();
    LWA_CHECK(lwa_behind_kernel(call.ends_kernel));
}

void lwa_compare(void)
{
    lwa_in_runtime = false;
    compare_all();
    for (size_t i = 0; i < call.count; i++) {
        free(call.list[i].host);
    }
    for (size_t i = 0; i < call.host_count; i++) {
        free(call.host[i].bytes);
    }
    free(call.list);
    free(call.host);
    memset(&call, 0, sizeof call);
}

/* At the end of the program, which the runtime may have ended in a call that the table has done. */
void lwa_finish_shadow(void)
{
    if (lwa_in_runtime && !lwa_has_refused()) {
        differences++;
        lwa_say("the table has done it, the runtime ends the program");
    }
    lwa_in_runtime = false;
    if (lwa_shadow && lwa_logged) {
        fprintf(stderr, "lamwiest: shadow: compared %" PRIu64 " differences %" PRIu64, compared, differences);
        for (int what = 0; what < LWA_OPEN; what++) {
            fprintf(stderr, " %s %" PRIu64, lwa_open_names[what], passed_over[what]);
        }
        fputc('\n', stderr);
    } else if (has_none && !has_device) {
        fputs("lamwiest: shadow: nothing was compared: the device shares the host's memory\n", stderr);
    }
}
