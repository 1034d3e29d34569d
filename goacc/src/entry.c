/*
 * The entry points of GCC 12: what gcc makes of the directives of a program.
 *
 * flags: -1, or -2 where an if clause is false, and then nothing is done on the device. async: a queue from 0 on, -1
 * for async without a number, -2 for none. The arguments behind the number of waits are their queues, -1 for all.
 */
#include <stdio.h>
#include <stdlib.h>

#include "inner.h"
#include "kinds.h"

/* The tags behind a kernel's maps. The highest four bits say what follows. */
enum { TAG_END = 0, TAG_DIMENSIONS = 1, TAG_ASYNC = 2, TAG_WAITS = 3 };
#define TAG_NUMBER 0xffffu

typedef void kernel_function(void *);

/* The arguments behind the last one that has a name, which the runtime gets too. */
enum { MOST_WORDS = 24 };
typedef struct words {
    va_list list;
    int count, at[MOST_WORDS];
} words;
#define FOUR_WORDS(w, i) (w).at[i], (w).at[i + 1], (w).at[i + 2], (w).at[i + 3]
#define WORDS(w) \
    FOUR_WORDS(w, 0), FOUR_WORDS(w, 4), FOUR_WORDS(w, 8), FOUR_WORDS(w, 12), FOUR_WORDS(w, 16), FOUR_WORDS(w, 20)

static int next_word(words *w)
{
    const int word = va_arg(w->list, int);

    if (w->count < MOST_WORDS) {
        w->at[w->count++] = word;
    } else if (lwa_shadow) {
        lwa_unserved("more than %d queues and numbers of gangs are not served in shadow mode", MOST_WORDS);
    }
    return word;
}

/* In a list of queues -1 stands for all, and acc_async_sync for none. */
static void wait_for(int async)
{
    if (async == -1) {
        lwa_wait(LW_NO_QUEUE_GIVEN);
    } else if (lwa_queue_of(async) != LW_NO_QUEUE_GIVEN) {
        lwa_wait(lwa_queue_of(async));
    }
}

static bool is_shared(int flags)
{
    return flags == -2 || !lwa_is_for_table();
}

static void push(lwa_region *region)
{
    region->below = lwa_innermost();
    region->device = lwa_on;
    lwa_set_innermost(region);
}

/* A region that the table does not know. */
static lwa_region *outside_region(void)
{
    lwa_region *region = lwa_memory(NULL, sizeof *region);

    *region = (lwa_region){.in_table = false};
    return region;
}

_Noreturn static void refuse_use(uintptr_t at, const lw_fault *absent)
{
    char name[LWA_NAME], text[LWA_ITEM];

    lwa_section_text(at, 1, name);
    snprintf(text, sizeof text, "use_device(%s)", name);
    lwa_refuse(absent, text);
}

/* host_data: the program gets device addresses in place of its own. Answers whether the maps are those of host_data. */
static bool use_device(const lwa_maps *maps)
{
    bool some = false;

    for (size_t i = 0; i < maps->count; i++) {
        const unsigned kind = maps->kinds[i] & 0xff;
        lwa_block *block;

        if (kind != KIND_USE_DEVICE && kind != KIND_USE_DEVICE_IF_PRESENT) {
            continue;
        }
        some = true;
        block = lwa_meets((uintptr_t)maps->at[i], 1);
        if (block == NULL && kind == KIND_USE_DEVICE && maps->at[i] != NULL) {
            const lw_fault absent = {LW_NOT_PRESENT, i, 0};

            if (!lwa_may_refuse(&absent)) {
                refuse_use((uintptr_t)maps->at[i], &absent);
            }
        }
        if (block != NULL && lwa_shadow) {
            block->root->given = true;
            lwa_watch_block(block);
        } else if (block != NULL) {
            maps->at[i] = (void *)lwa_device_of(block, (uintptr_t)maps->at[i]);
        }
    }
    return some;
}

LWA_EXPORT void GOACC_data_start(int flags, size_t count, void **at, size_t *sizes, unsigned short *kinds)
{
    const lwa_maps maps = {count, at, sizes, kinds};
    lwa_directive directive;

    lwa_take_for("data", LWA_FROM, acc_ev_enter_data_start, acc_construct_data);
    if (is_shared(flags) || use_device(&maps)) {
        push(outside_region());
    } else {
        lwa_read_maps(&maps, LWA_DATA, &directive);
        push(lwa_enter(&directive));
    }
    LWA_LEAVE(LWA_NEXT(GOACC_data_start)(flags, count, at, sizes, kinds));
}

LWA_EXPORT void GOACC_data_end(void)
{
    lwa_region *region;

    lwa_take_for("end data", LWA_FROM, acc_ev_exit_data_start, acc_construct_data);
    region = lwa_innermost();
    if (region == NULL) {
        lwa_unserved("no data region of this thread is open");
    }
    lwa_set_innermost(region->below);
    if (region->in_table) {
        lwa_go_to(region->device);
        lwa_exit(region);
    } else {
        free(region);
    }
    LWA_LEAVE(LWA_NEXT(GOACC_data_end)());
}

static void wait_for_list(int waits, words *w, bool is_shared)
{
    for (int i = 0; i < waits; i++) {
        const int async = next_word(w);

        if (!is_shared) {
            wait_for(async);
        }
    }
}

/* What a queue of the runtime goes on behind the table has made. */
static void wait_on_runtime(int async, int waits)
{
    if (async != acc_async_sync && waits != 0) {
        LWA_NEXT(acc_wait_all)();
    }
}

/* A directive of no region, behind its wait clause. */
static void direct(int flags, const lwa_maps *maps, lwa_way way, int async, int waits, words *w)
{
    const bool shared = is_shared(flags);
    lwa_directive directive;

    wait_for_list(waits, w, shared);
    if (!shared) {
        lwa_read_maps(maps, way, &directive);
        directive.queue = lwa_queue(async);
        lwa_direct(&directive);
    }
}

#define DIRECTIVE(entry, name, way, event, construct) \
    LWA_EXPORT void entry(int flags, size_t count, void **at, size_t *sizes, unsigned short *kinds, int async, \
                          int waits, ...) \
    { \
        const lwa_maps maps = {count, at, sizes, kinds}; \
        words w = {.count = 0}; \
\
        lwa_take_for(name, LWA_FROM, event, construct); \
        va_start(w.list, waits); \
        direct(flags, &maps, way, async, waits, &w); \
        va_end(w.list); \
        LWA_LEAVE((LWA_NEXT(entry)(flags, count, at, sizes, kinds, async, waits, WORDS(w)), \
                   wait_on_runtime(async, waits))); \
    }

DIRECTIVE(GOACC_enter_data, "enter data", LWA_ENTER_DATA, acc_ev_enter_data_start, acc_construct_enter_data)
DIRECTIVE(GOACC_exit_data, "exit data", LWA_EXIT_DATA, acc_ev_exit_data_start, acc_construct_exit_data)
DIRECTIVE(GOACC_update, "update", LWA_UPDATE, acc_ev_update_start, acc_construct_update)

/* What compilers before GCC 12 make of both; which it is stands in the kinds alone. */
DIRECTIVE(GOACC_enter_exit_data, "enter or exit data", lwa_is_entry(&maps) ? LWA_ENTER_DATA : LWA_EXIT_DATA,
          lwa_is_entry(&maps) ? acc_ev_enter_data_start : acc_ev_exit_data_start,
          lwa_is_entry(&maps) ? acc_construct_enter_data : acc_construct_exit_data)

/* One item of declare in a function: its start enters data, and its end exits. present is a region that ends at
   once. */
static void declare(const lwa_maps *one)
{
    const unsigned kind = one->kinds[0] & 0xff;
    lwa_directive directive;

    if (kind == KIND_PRESENT) {
        lwa_read_maps(one, LWA_DATA, &directive);
        lwa_exit(lwa_enter(&directive));
    } else if (kind != KIND_DEVICE_POINTER && kind != KIND_POINTER) {
        lwa_read_maps(one, lwa_is_entry(one) ? LWA_ENTER_DATA : LWA_EXIT_DATA, &directive);
        lwa_direct(&directive);
    }
}

LWA_EXPORT void GOACC_declare(int flags, size_t count, void **at, size_t *sizes, unsigned short *kinds)
{
    lwa_take("declare", LWA_FROM);
    for (size_t i = 0; i < count && !is_shared(flags); i++) {
        const lwa_maps one = {1, at + i, sizes + i, kinds + i};

        declare(&one);
    }
    LWA_LEAVE(LWA_NEXT(GOACC_declare)(flags, count, at, sizes, kinds));
}

LWA_EXPORT void GOACC_wait(int async, int waits, ...)
{
    words w = {.count = 0};

    /* With async another queue would go on behind those; here they are made at once, so that it may. */
    lwa_take_for("wait", LWA_FROM, acc_ev_wait_start, acc_construct_wait);
    va_start(w.list, waits);
    wait_for_list(waits, &w, !lwa_is_for_table());
    va_end(w.list);
    if (waits == 0 && lwa_is_for_table()) {
        lwa_wait(LW_NO_QUEUE_GIVEN);
    }
    LWA_LEAVE((LWA_NEXT(GOACC_wait)(async, waits, WORDS(w)), wait_on_runtime(async, 1)));
}

/* The numbers of gangs, workers and vectors, which a kernel of one gang does not need. */
static void pass_dimensions(unsigned which, words *w)
{
    for (unsigned dimension = 0; dimension < 3; dimension++) {
        if ((which & (1u << dimension)) != 0) {
            next_word(w);
        }
    }
}

/* Waits for what a kernel waits for: its wait clause, and the queue that it is put into, since it runs at once. Answers
   the number of async. */
static int wait_before_kernel(words *w, bool is_shared)
{
    int async = acc_async_sync;

    for (unsigned tag = (unsigned)next_word(w); tag != TAG_END; tag = (unsigned)next_word(w)) {
        unsigned number = tag & TAG_NUMBER;

        switch (tag >> 28) {
        case TAG_DIMENSIONS:
            pass_dimensions(number, w);
            break;
        case TAG_ASYNC:
            async = number == TAG_NUMBER ? next_word(w) : (int)number;
            if (!is_shared && lwa_queue(async) != LW_NO_QUEUE_GIVEN) {
                lwa_wait(lwa_queue(async));
            }
            break;
        case TAG_WAITS:
            wait_for_list((int)number, w, is_shared);
            break;
        default:
            lwa_unserved("a kernel has the argument %#x, which is not served", tag);
        }
    }
    return async;
}

/* A kernel for the runtime, which is waited for. */
typedef struct runtime_kernel {
    int flags, async;
    kernel_function *run;
    const lwa_maps *maps;
    words words;
} runtime_kernel;

static void run_on_runtime(void *given);

LWA_EXPORT void GOACC_parallel_keyed(int flags, kernel_function *run, size_t count, void **at, size_t *sizes,
                                     unsigned short *kinds, ...)
{
    const lwa_maps maps = {count, at, sizes, kinds};
    runtime_kernel kernel = {.flags = flags, .run = run, .maps = &maps};
    lwa_directive directive;
    lwa_region *region;
    bool shared;

    lwa_take_for("compute construct", LWA_FROM, acc_ev_compute_construct_start, acc_construct_parallel);
    shared = is_shared(flags);
    va_start(kernel.words.list, kinds);
    kernel.async = wait_before_kernel(&kernel.words, shared);
    va_end(kernel.words.list);
    if (shared) {
        lwa_run_free(lwa_shadow ? run_on_runtime : run, lwa_shadow ? (void *)&kernel : at, false);
    } else {
        lwa_read_maps(&maps, LWA_DATA, &directive);
        lwa_note(acc_ev_enter_data_start, NULL, 0, 0);
        region = lwa_enter(&directive);
        lwa_note(acc_ev_enter_data_end, NULL, 0, 0);
        lwa_kernel(lwa_shadow ? run_on_runtime : run, lwa_shadow ? &kernel : NULL, &maps, region);
        lwa_note(acc_ev_exit_data_start, NULL, 0, 0);
        lwa_exit(region);
        lwa_note(acc_ev_exit_data_end, NULL, 0, 0);
    }
    LWA_LEAVE((void)0);
}

static void run_on_runtime(void *given)
{
    const runtime_kernel *k = given;
    const lwa_maps *maps = k->maps;

    LWA_NEXT(GOACC_parallel_keyed)(k->flags, k->run, maps->count, maps->at, maps->sizes, maps->kinds, WORDS(k->words));
    if (k->async != acc_async_sync) {
        LWA_NEXT(acc_wait)(k->async);
    }
}

/* A kernel has one gang of one worker. */
LWA_EXPORT int GOACC_get_num_threads(void)
{
    LWA_PASS(lwa_shadow, GOACC_get_num_threads);
    return 1;
}

LWA_EXPORT int GOACC_get_thread_num(void)
{
    LWA_PASS(lwa_shadow, GOACC_get_thread_num);
    return 0;
}

/* What GCC 5 emits: the host runs it. */
LWA_EXPORT void GOACC_parallel(int flags, kernel_function *run, size_t count, void **at)
{
    (void)flags;
    (void)count;
    lwa_check_first("compute construct", LWA_FROM);
    run(at);
}
