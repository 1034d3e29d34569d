/*
 * Threads on one table. Each maps an array of its own over and over, and runs a kernel on one that all share: whoever
 * finds its block lent waits. The kernels run without the lock, and none is lost. Each thread has as much stack as the
 * header asks for, and makes a table of its own first.
 */
#define _POSIX_C_SOURCE 200809L
#include "lamwiest.h"
#include <inttypes.h>
#include <pthread.h>
#include <stdbool.h>
#include <stdio.h>
#include <stdlib.h>
#include <time.h>

enum { THREADS = 64, ROUNDS = 50, BYTES = 64, ITEMS = 64 };

/* A sanitizer takes stack of its own. */
#ifdef __SANITIZE_THREAD__
enum { STACK = 1 << 20 };
#else
enum { STACK = 1 << 18 };
#endif

static lw_shared *shared;
static uint64_t common;
static uint64_t rounds = ROUNDS;
static bool has_kernels = true;

static void must(uint32_t status, const char *call)
{
    if (status != LW_DONE) {
        fprintf(stderr, "%s: refused %s\n", call, lw_status_name(status));
        exit(EXIT_FAILURE);
    }
}

/* Whether a call is to be made again: its block was lent, or the trace had no room. */
static bool is_again(lw_table *table, uint32_t status, const char *call)
{
    uint64_t folded;

    if (status == LW_LENT) {
        lw_shared_wait(shared);
        return true;
    }
    if (status == LW_TRACE_FULL) {
        must(lw_rebase(table, &folded, NULL), "rebase");
        return true;
    }
    must(status, call);
    return false;
}

static uint64_t enter(lw_table *table, uint32_t clause, uint64_t start, uint64_t len)
{
    const lw_item item = {.clause = clause, .start = start, .len = len};
    uint64_t region = 0;

    while (is_again(table, lw_enter(table, 0, &item, 1, &region, NULL), "enter")) {
    }
    return region;
}

static void leave(lw_table *table, uint64_t region)
{
    while (is_again(table, lw_exit(table, region, NULL), "exit")) {
    }
}

/* Adds one to the number that all share. */
static void run_kernel(void)
{
    lw_table *table = lw_shared_take(shared);
    const uint64_t region = enter(table, LW_PRESENT, common, sizeof(uint32_t));
    uint64_t lease = 0;
    uint32_t number;

    while (is_again(table, lw_lend(table, region, common, sizeof number, &lease, NULL), "lend")) {
    }
    must(lw_lease_read(table, lease, &number, sizeof number, NULL), "lease read");
    lw_shared_leave(shared);
    number++;
    lw_shared_take(shared);
    must(lw_lease_write(table, lease, &number, sizeof number, NULL), "lease write");
    while (is_again(table, lw_gather(table, lease, NULL), "gather")) {
    }
    leave(table, region);
    lw_shared_leave(shared);
}

/* The array is the thread's own, so a pair is made in two turns. */
static void map_and_unmap(uint64_t array)
{
    lw_table *table = lw_shared_take(shared);
    const uint64_t region = enter(table, LW_COPY, array, BYTES);

    lw_shared_leave(shared);
    lw_shared_take(shared);
    leave(table, region);
    lw_shared_leave(shared);
}

/* A directive of as many items as there may be, on a table that nobody else has. */
static void live_alone(void)
{
    lw_item items[ITEMS];
    lw_table table = LW_NO_TABLE;
    uint64_t region = 0;

    must(lw_table_new(&table, NULL, NULL), "own table");
    for (size_t i = 0; i < ITEMS; i++) {
        items[i] = (lw_item){.clause = LW_COPY, .start = LW_HOST_BASE + BYTES * i, .len = BYTES};
    }
    must(lw_enter(&table, 0, items, ITEMS, &region, NULL), "own region");
    must(lw_exit(&table, region, NULL), "its exit");
    lw_table_end(&table);
}

static void *live(void *unused)
{
    lw_table *table;
    uint64_t array = 0;

    (void)unused;
    live_alone();
    table = lw_shared_take(shared);
    must(lw_array(table, BYTES, &array, NULL), "array");
    lw_shared_leave(shared);
    for (uint64_t round = 0; round < rounds; round++) {
        map_and_unmap(array);
        if (has_kernels) {
            run_kernel();
        }
    }
    return NULL;
}

static void run(size_t threads)
{
    pthread_t lives[THREADS];
    pthread_attr_t small;

    pthread_attr_init(&small);
    pthread_attr_setstacksize(&small, STACK);
    for (size_t i = 0; i < threads; i++) {
        must(pthread_create(&lives[i], &small, live, NULL) == 0 ? LW_DONE : LW_MEMORY, "thread");
    }
    pthread_attr_destroy(&small);
    for (size_t i = 0; i < threads; i++) {
        pthread_join(lives[i], NULL);
    }
}

/* How many pairs of so many threads there are in a second. */
static double rate(size_t threads)
{
    struct timespec from, to;

    rounds = 400000 / threads;
    clock_gettime(CLOCK_MONOTONIC, &from);
    run(threads);
    clock_gettime(CLOCK_MONOTONIC, &to);
    return rounds * threads / ((to.tv_sec - from.tv_sec) + (to.tv_nsec - from.tv_nsec) / 1e9);
}

/* With a word it tells how many pairs there are in a second, of one thread and of all. */
int main(int count, char **words)
{
    const uint32_t zero = 0;
    lw_limits limits = LW_LIMITS;
    lw_table *table;
    lw_item item = {.clause = LW_COPYIN, .len = sizeof zero};
    uint32_t sum = 0;

    (void)words;
    limits.regions = 2 * THREADS;
    limits.trace_cap = 1000;
    must(lw_shared_new(&shared, &limits, NULL), "table");
    table = lw_shared_take(shared);
    if (table == NULL || lw_shared_take(shared) != NULL) {
        must(LW_LENT, "a second taking");
    }
    must(lw_array(table, sizeof zero, &item.start, NULL), "array");
    common = item.start;
    must(lw_host_write(table, common, &zero, sizeof zero, NULL), "host write");
    must(lw_enter_data(table, 0, &item, 1, LW_ASYNC_SYNC, NULL), "enter data");
    lw_shared_leave(shared);
    if (count > 1) {
        has_kernels = false;
        printf("pairs a second: %.0f of one thread", rate(1));
        printf(", %.0f of %d\n", rate(THREADS), THREADS);
    } else {
        run(THREADS);
        must(lw_device_read(lw_shared_take(shared), 0, common, &sum, sizeof sum, NULL), "device read");
        lw_shared_leave(shared);
        printf("%d threads, %d kernels each: %" PRIu32 "\n", THREADS, ROUNDS, sum);
    }
    lw_shared_end(shared);
    return EXIT_SUCCESS;
}
