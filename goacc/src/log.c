/* A line on standard error for each thing done (LAMWIEST_LOG=1), in the form of the log of accrun, with the program's
   addresses. */
#include <inttypes.h>
#include <stdio.h>
#include <string.h>

#include "inner.h"

bool lwa_logged;

/* The line at the end, for each table. Of the copies, [0] is of those in, and [1] of those out. */
static struct {
    uint64_t mapped, ended, refused, waiting, copies[2], bytes[2];
} all[LWA_DEVICES];

#define OWN all[lwa_on]

void lwa_start_log(void)
{
    lwa_logged = lwa_is_on("LAMWIEST_LOG");
    memset(&OWN, 0, sizeof OWN);
}

/* The line of the program's call, where it is known, as "main.c:12: ". */
static const char *place(void)
{
    static char text[LWA_NAME + 2];

    if (lwa_line_of(lwa_from(), text)) {
        strcat(text, ": ");
    }
    return text;
}

__attribute__((format(printf, 1, 2))) static void say(const char *format, ...)
{
    char text[512 + LWA_NAME];
    va_list words;

    va_start(words, format);
    vsnprintf(text, sizeof text, format, words);
    va_end(words);
    fprintf(stderr, "lamwiest: %s%s\n", place(), text);
}

/* The variable that has some bytes, where it is known, as " name a[2:4]". */
static const char *name(uintptr_t at, size_t len)
{
    static char text[LWA_NAME + 6];
    char found[LWA_NAME];

    text[0] = '\0';
    if (lwa_variable_at(at, len, found)) {
        snprintf(text, sizeof text, " name %s", found);
    }
    return text;
}

/* ---- Copies ---- */

static void count_copy(size_t len, bool out)
{
    OWN.copies[out]++;
    OWN.bytes[out] += len;
}

/* The copy of an item, which is made or put into its queue. */
static void say_copy(const lwa_directive *d, const lwa_item *item, size_t i)
{
    const bool out = item->did.way == LW_OUT, waits = d->queue != LW_NO_QUEUE_GIVEN;
    char queue[32] = "";

    if (item->did.way == 0) {
        return;
    }
    if (waits) {
        OWN.waiting++;
        snprintf(queue, sizeof queue, " queue %" PRIu64, d->queue);
    } else {
        count_copy(item->len, out);
    }
    say("  item %zu: %s %s %#" PRIxPTR " %zu at %#" PRIx64 "%s%s", i, waits ? "put" : "copied", out ? "out" : "in",
        item->at, item->len, lwa_place_of(item->block, item->at), queue, name(item->at, item->len));
}

void lwa_log_copies(const char *statement, uint64_t queue)
{
    if (lwa_logged && queue == LW_NO_QUEUE_GIVEN) {
        say("%s", statement);
    } else if (lwa_logged) {
        say("%s(%" PRIu64 ")", statement, queue);
    }
}

void lwa_log_made(uint64_t queue, const lwa_block *block, uintptr_t at, size_t len, bool out)
{
    if (lwa_logged) {
        OWN.waiting--;
        count_copy(len, out);
        say("  copied %s %#" PRIxPTR " %zu at %#" PRIx64 " queue %" PRIu64 "%s", out ? "out" : "in", at, len,
            lwa_place_of(block, at), queue, name(at, len));
    }
}

/* ---- Directives ---- */

void lwa_log_directive(const lwa_directive *d)
{
    const bool leaves = d->way == LWA_END_DATA;

    if (!lwa_logged) {
        return;
    }
    fprintf(stderr, "lamwiest: %s%s", place(), lwa_name_of(d->way));
    for (size_t i = 0; !leaves && i < d->items.count; i++) {
        char text[LWA_ITEM];

        lwa_item_text(&d->items.at[i], text);
        fprintf(stderr, " %s", text);
    }
    if (d->option && !leaves) {
        fputs(d->way == LWA_UPDATE ? " if_present" : " finalize", stderr);
    }
    if (d->queue != LW_NO_QUEUE_GIVEN) {
        fprintf(stderr, " async(%" PRIu64 ")", d->queue);
    }
    fputc('\n', stderr);
}

void lwa_log_region(const lwa_directive *d)
{
    if (lwa_logged && (d->way == LWA_DATA || d->way == LWA_END_DATA)) {
        say("  %s region %" PRIu64, d->way == LWA_DATA ? "entered" : "exited", d->items.at[0].region);
    }
}

/* ---- Items ---- */

static void say_range(size_t i, const char *what, const lwa_block *block)
{
    lw_mapped_range range = {0};

    lw_range_at(lwa_table(), 0, block->told, &range);
    say("  item %zu: %s %#" PRIxPTR " %zu at %#" PRIx64 " structured %" PRIu64 " dynamic %" PRIu64 "%s", i, what,
        block->at, block->len, range.place, range.structured, range.dynamic, name(block->at, block->len));
}

static void say_pointer(const lwa_item *item, size_t i)
{
    const uintptr_t at = lwa_is_pointer(item) ? item->at : item->pointer;
    const lw_item_did *did = &item->did;

    if (did->aim == LW_AIMED) {
        say("  item %zu: attached %#" PRIxPTR " to %#" PRIx64 " count %" PRIu64 "%s", i, at, did->target, did->times,
            name(at, LWA_POINTER));
    } else if (did->aim != 0) {
        say("  item %zu: %s %#" PRIxPTR " count %" PRIu64 "%s", i, did->aim == LW_AIMED_AGAIN ? "attached" : "detached",
            at, did->times, name(at, LWA_POINTER));
    } else if (lwa_is_pointer(item)) {
        say("  item %zu: unattached %#" PRIxPTR "%s", i, at, name(at, LWA_POINTER));
    }
}

static void say_nothing(const lwa_item *item, size_t i)
{
    if (lwa_is_pointer(item)) {
        say_pointer(item, i);
    } else if (item->len == 0) {
        say("  item %zu: empty", i);
    } else if (item->block != NULL) {
        say_range(i, "kept", item->block);
    } else {
        say("  item %zu: absent %#" PRIxPTR " %zu%s", i, item->at, item->len, name(item->at, item->len));
    }
}

/* At the end of a region only of what it holds. */
void lwa_log_item(const lwa_directive *d, size_t i)
{
    const lwa_item *item = &d->items.at[i];

    if (!lwa_logged) {
        return;
    }
    switch (item->did.step) {
    case LW_MOVED:
        say_copy(d, item, i);
        break;
    case LW_BORN:
    case LW_COUNTED:
        OWN.mapped += item->did.step == LW_BORN;
        say_range(i, item->did.step == LW_BORN ? "mapped" : "counted", item->block);
        say_copy(d, item, i);
        if (item->did.way == 0 && lwa_copies_in(item->clause)) {
            say("  item %zu: skipped in %#" PRIxPTR " %zu present%s", i, item->at, item->len,
                name(item->at, item->len));
        }
        say_pointer(item, i);
        break;
    case LW_DROPPED:
        say_pointer(item, i);
        if (item->back || item->clause == LW_COPYOUT) {
            say("  item %zu: skipped out %#" PRIxPTR " %zu held%s", i, item->at, item->len,
                name(item->at, item->len));
        }
        say_range(i, "dropped", item->block);
        break;
    case LW_ENDED_RANGE:
        OWN.ended++;
        say_pointer(item, i);
        say_copy(d, item, i);
        say("  item %zu: ended %#" PRIxPTR " %zu at %#" PRIx64 "%s", i, item->block->at, item->block->len,
            item->block->place, name(item->block->at, item->block->len));
        break;
    default:
        if (d->way != LWA_END_DATA || item->did.aim != 0) {
            say_nothing(item, i);
        }
    }
}

/* ---- Kernels, refusals, the end ---- */

void lwa_log_loan(const char *what, const lwa_block *block)
{
    if (lwa_logged) {
        say("  %s %#" PRIxPTR " %zu at %#" PRIx64 " serial %" PRIu64 "%s", what, block->at, block->len,
            block->place, block->lease, name(block->at, block->len));
    }
}

void lwa_log_refused(const lw_fault *fault)
{
    char text[LWA_REFUSAL];

    if (lwa_logged) {
        OWN.refused++;
        lwa_refusal_text(fault, text);
        say("  refused %s", text);
    }
}

void lwa_finish_log(void)
{
    if (lwa_logged) {
        fprintf(stderr, "lamwiest: total mapped %" PRIu64 " ended %" PRIu64 " copied in %" PRIu64 " bytes %" PRIu64
                " copied out %" PRIu64 " bytes %" PRIu64 " waiting %" PRIu64 " refused %" PRIu64 "\n", OWN.mapped,
                OWN.ended, OWN.copies[0], OWN.bytes[0], OWN.copies[1], OWN.bytes[1], OWN.waiting, OWN.refused);
    }
}
