/*
 * What an order of calls costs as more and more are alive: regions, mapped arrays, leases and attached pointers that
 * come and go, by doubling from 4,000 to 64,000 or in the numbers that are given. For each it prints nanoseconds a
 * call and the longest single call in microseconds, both with two looks at the clock. And it prints how many bytes the
 * library holds for each that came at first, with its copy in the base of the trace.
 *
 * Usage: growth [KIND..] [NUMBER..], of the kinds `regions`, `arrays`, `leases` and `pointers`; all of them if none is
 * named. There may be 2 to 65,536 regions, to 500,000 arrays or leases, and to 4,000,000 pointers.
 */
#define _POSIX_C_SOURCE 200809L
#include "lamwiest.h"
#include <malloc.h>
#include <stdbool.h>
#include <stdio.h>
#include <stdlib.h>
#include <string.h>
#include <time.h>

enum {
    LEAST = 4000,        /* how many are alive at first */
    MOST = 64000,        /* and at last */
    TRACE = 1 << 18,     /* how many events come between two folds at most */
    STEPS = 4            /* how often each that is alive goes and comes */
};

/* Host addresses of the arrays, which lie apart. */
#define LEN UINT64_C(16)
#define APART UINT64_C(64)
#define ARRAY(n) (LW_HOST_BASE + APART * (uint64_t)(n))
#define MEMORY (UINT64_C(64) << 20)
#define POINTER(n) (LW_HOST_BASE + MEMORY / 2 + 8 * (uint64_t)(n))

/* A table with what is alive on it: by its place, an address, or the number of a region or of a lease. */
typedef struct world {
    lw_table table;
    lw_fault fault;
    uint64_t region; /* in which leases are lent */
    uint64_t *alive;
    uint64_t events; /* since the last fold */
} world;

typedef struct kind {
    const char *name;
    void (*begin)(world *world, size_t most);
    void (*come)(world *world, size_t place);
    void (*go)(world *world, size_t place);
} kind;

/* The place of the one that goes in a step; where one comes at once, it takes that place. */
typedef struct order {
    const char *name;
    size_t (*next)(uint64_t step, size_t count);
    bool is_halved;  /* whether the first half of them goes before, so that as many places are gone as are taken */
    bool is_drained; /* whether all go, and then all come, in place of one after the other */
} order;

static void must(uint32_t status, const char *call)
{
    if (status != LW_DONE) {
        fprintf(stderr, "%s: status %u\n", call, (unsigned)status);
        exit(EXIT_FAILURE);
    }
}

static uint64_t now(void)
{
    struct timespec t;

    clock_gettime(CLOCK_MONOTONIC, &t);
    return (uint64_t)t.tv_sec * 1000000000 + (uint64_t)t.tv_nsec;
}

/* ---- Calls ---- */

/* Folds the events, outside of what is timed. */
static void fold(world *world)
{
    uint64_t folded;

    must(lw_rebase(&world->table, &folded, &world->fault), "rebase");
    world->events = 0;
}

/* How long calls took: all of them, and the longest. */
typedef struct times {
    uint64_t all;
    uint64_t longest;
} times;

static void add(times *times, uint64_t from)
{
    uint64_t took = now() - from;

    times->all += took;
    times->longest = took > times->longest ? took : times->longest;
}

/* One goes or comes. */
static void call(world *world, void (*act)(struct world *, size_t), size_t place, times *times)
{
    uint64_t from;

    if (world->events == TRACE) {
        fold(world);
    }
    from = now();
    act(world, place);
    add(times, from);
    world->events++;
}

/* ---- Kinds ---- */

static void map(world *world, size_t place)
{
    lw_item item = {.clause = LW_CREATE, .start = ARRAY(place), .len = LEN};

    must(lw_enter_data(&world->table, 0, &item, 1, LW_ASYNC_SYNC, &world->fault), "enter data");
}

static void unmap(world *world, size_t place)
{
    lw_item item = {.clause = LW_DELETE, .start = ARRAY(place), .len = LEN};

    must(lw_exit_data(&world->table, 0, &item, 1, 0, LW_ASYNC_SYNC, &world->fault), "exit data");
}

static void enter(world *world, size_t place)
{
    lw_item item = {.clause = LW_PRESENT, .start = ARRAY(place % 64), .len = LEN};

    must(lw_enter(&world->table, 0, &item, 1, &world->alive[place], &world->fault), "enter");
}

static void leave(world *world, size_t place)
{
    must(lw_exit(&world->table, world->alive[place], &world->fault), "exit");
}

static void lend(world *world, size_t place)
{
    must(lw_lend(&world->table, world->region, ARRAY(place), LEN, &world->alive[place], &world->fault), "lend");
}

static void gather(world *world, size_t place)
{
    must(lw_gather(&world->table, world->alive[place], &world->fault), "gather");
}

static void attach(world *world, size_t place)
{
    lw_item item = {.clause = LW_ATTACH, .start = POINTER(place)};

    must(lw_enter_data(&world->table, 0, &item, 1, LW_ASYNC_SYNC, &world->fault), "attach");
}

static void detach(world *world, size_t place)
{
    lw_item item = {.clause = LW_DETACH, .start = POINTER(place)};

    must(lw_exit_data(&world->table, 0, &item, 1, 0, LW_ASYNC_SYNC, &world->fault), "detach");
}

static void begin_arrays(world *world, size_t most)
{
    (void)world;
    (void)most;
}

static void begin_regions(world *world, size_t most)
{
    (void)most;
    for (size_t n = 0; n < 64; n++) {
        map(world, n);
    }
}

static void begin_leases(world *world, size_t most)
{
    lw_item item = {.clause = LW_PRESENT, .start = ARRAY(0), .len = LEN};

    for (size_t n = 0; n < most; n++) {
        call(world, map, n, &(times){0, 0});
    }
    must(lw_enter(&world->table, 0, &item, 1, &world->region, &world->fault), "enter");
}

/* One array of pointers, each of which points to the first of the small arrays. */
static void begin_pointers(world *world, size_t most)
{
    lw_item item = {.clause = LW_COPYIN, .start = POINTER(0), .len = 8 * most};
    uint64_t *pointers = malloc(8 * most);

    must(pointers ? LW_DONE : LW_MEMORY, "pointers");
    for (size_t n = 0; n < most; n++) {
        pointers[n] = ARRAY(0);
    }
    must(lw_host_write(&world->table, item.start, (const uint8_t *)pointers, item.len, &world->fault), "write");
    free(pointers);
    map(world, 0);
    must(lw_enter_data(&world->table, 0, &item, 1, LW_ASYNC_SYNC, &world->fault), "enter data");
}

static const kind kinds[] = {
    {"regions", begin_regions, enter, leave},
    {"arrays", begin_arrays, map, unmap},
    {"leases", begin_leases, lend, gather},
    {"pointers", begin_pointers, attach, detach},
};

/* ---- Orders ---- */

static size_t first_in(uint64_t step, size_t count)
{
    return step % count;
}

static size_t last_in(uint64_t step, size_t count)
{
    (void)step;
    return count - 1;
}

static size_t in_no_order(uint64_t step, size_t count)
{
    return (step * UINT64_C(0x9e3779b97f4a7c15) >> 20) % count;
}

/* The one at place 0 stays for ever. */
static size_t beside_one(uint64_t step, size_t count)
{
    return 1 + step % (count - 1);
}

static const order orders[] = {
    {"first in", first_in, false, false},
    {"last in", last_in, false, false},
    {"no order", in_no_order, false, false},
    {"half gone", in_no_order, true, false},
    {"one stays", beside_one, false, false},
    {"all at once", first_in, false, true},
};

/* ---- Runs ---- */

static void make(world *world, size_t most)
{
    lw_limits limits = LW_LIMITS;
    uint64_t made;

    *world = (struct world){.table = LW_NO_TABLE, .alive = calloc(most, sizeof *world->alive)};
    limits.host = limits.device = MEMORY;
    limits.regions = 65536;
    limits.trace_cap = TRACE;
    must(world->alive ? lw_table_new(&world->table, &limits, &world->fault) : LW_MEMORY, "table");
    for (size_t n = 0; n < TRACE; n++) {
        must(lw_wait(&world->table, 0, LW_NO_QUEUE_GIVEN, &made, &world->fault), "wait");
    }
    fold(world);
}

/* As many go as come. */
static void turn(world *world, const kind *kind, const order *order, size_t count, times *times)
{
    size_t first = order->is_halved ? count / 2 : 0;

    for (uint64_t n = 0; n < STEPS * count; n++) {
        size_t place = first + order->next(n, count - first);

        call(world, kind->go, place, times);
        if (!order->is_drained) {
            call(world, kind->come, place, times);
        }
        for (size_t back = 0; order->is_drained && place == count - 1 && back < count; back++) {
            call(world, kind->come, back, times);
        }
    }
}

/* How many bytes the library holds. */
static size_t held(void)
{
    struct mallinfo2 info = mallinfo2();

    return info.uordblks + info.hblkhd;
}

static void run(const kind *kind, const order *order, size_t count)
{
    world world;
    times times = {0, 0}, untold = {0, 0};
    size_t before, more;

    make(&world, count + 1);
    kind->begin(&world, count);
    fold(&world);
    before = held();
    for (size_t n = 0; n < count; n++) {
        call(&world, kind->come, n, &untold);
    }
    fold(&world);
    more = held() - before;
    for (size_t n = 0; order->is_halved && n < count / 2; n++) {
        call(&world, kind->go, n, &untold);
    }
    fold(&world);
    turn(&world, kind, order, count, &times);
    printf("%-8s %-11s %6zu %8.0f ns %8.1f us %6zu bytes\n", kind->name, order->name, count,
           (double)times.all / (double)(2 * STEPS * count), (double)times.longest / 1000, more / count);
    lw_table_end(&world.table);
    free(world.alive);
}

/* ---- The command line ---- */

/* The number that a word of the command line says; 0 for the name of a kind. */
static size_t number(const char *word)
{
    char *end;
    size_t said = strtoul(word, &end, 10);

    return *end == 0 ? said : 0;
}

/* Whether a word is the name of a kind, or a number that a run can have. */
static bool is_known(const char *word)
{
    for (size_t k = 0; k < sizeof kinds / sizeof *kinds; k++) {
        if (strcmp(word, kinds[k].name) == 0) {
            return true;
        }
    }
    return number(word) >= 2;
}

/* Whether a kind is named, or none is. */
static bool is_named(const char *name, int argc, char **argv)
{
    int kinds_named = 0;

    for (int n = 1; n < argc; n++) {
        if (strcmp(argv[n], name) == 0) {
            return true;
        }
        kinds_named += number(argv[n]) == 0;
    }
    return kinds_named == 0;
}

/* Runs a kind in an order, with each number that is given or else by doubling. */
static void run_all(const kind *kind, const order *order, int argc, char **argv)
{
    bool is_given = false;

    for (int n = 1; n < argc; n++) {
        if (number(argv[n]) > 0) {
            run(kind, order, number(argv[n]));
            is_given = true;
        }
    }
    for (size_t count = LEAST; !is_given && count <= MOST; count *= 2) {
        run(kind, order, count);
    }
}

int main(int argc, char **argv)
{
    for (int n = 1; n < argc; n++) {
        if (!is_known(argv[n])) {
            fprintf(stderr, "growth: '%s' is neither a kind nor a number from 2 on\n", argv[n]);
            return 2;
        }
    }
    for (size_t k = 0; k < sizeof kinds / sizeof *kinds; k++) {
        for (size_t o = 0; is_named(kinds[k].name, argc, argv) && o < sizeof orders / sizeof *orders; o++) {
            run_all(&kinds[k], &orders[o], argc, argv);
        }
    }
    return EXIT_SUCCESS;
}
