/*
 * What directives on mapped arrays cost here and in libgomp, by turns in one run: the least of twelve, in nanoseconds.
 *
 * Usage: LD_LIBRARY_PATH=device/out beside, where `make -C device` built the plugin, a device with memory of its own.
 */
#define _POSIX_C_SOURCE 200809L
#include "lamwiest.h"
#include <openacc.h>
#include <stdio.h>
#include <stdlib.h>
#include <time.h>

enum {
    TURNS = 12,
    ROUNDS = 50000,       /* how many pairs a turn has */
    MANY = 64,            /* items of one directive */
    FEW = 8,              /* items of one region */
    MOST = 100000,        /* mapped arrays at most */
    TRACE = 4 * ROUNDS
};

/* The arrays lie apart, here and there. */
#define LEN 64
#define APART 128
#define MEMORY (UINT64_C(64) << 20)

static lw_table table = LW_NO_TABLE;
static lw_fault fault;
static char *arrays;
static size_t count;

static void must(uint32_t status, const char *call)
{
    if (status != LW_DONE) {
        fprintf(stderr, "%s: status %u\n", call, (unsigned)status);
        exit(EXIT_FAILURE);
    }
}

static uint64_t now(void)
{
    struct timespec t;

    clock_gettime(CLOCK_MONOTONIC, &t);
    return (uint64_t)t.tv_sec * 1000000000 + (uint64_t)t.tv_nsec;
}

/* One of the first arrays so many, in no order. */
static size_t one_of(uint64_t round, size_t most)
{
    return (round * UINT64_C(0x9e3779b97f4a7c15) >> 20) % most;
}

static uint64_t address(size_t n)
{
    return LW_HOST_BASE + APART * (uint64_t)n;
}

static void map_at(uint32_t clause, uint64_t start)
{
    lw_item item = {.clause = clause, .start = start, .len = LEN};

    must(lw_enter_data(&table, 0, &item, 1, LW_ASYNC_SYNC, &fault), "enter data");
}

static void map(uint32_t clause, size_t n)
{
    map_at(clause, address(n));
}

static void unmap_at(uint64_t start)
{
    lw_item item = {.clause = LW_DELETE, .start = start, .len = LEN};

    must(lw_exit_data(&table, 0, &item, 1, 0, LW_ASYNC_SYNC, &fault), "exit data");
}

static void unmap(size_t n)
{
    unmap_at(address(n));
}

/* ---- What is timed ---- */

static void present_here(uint64_t round)
{
    size_t n = one_of(round, count);

    map(LW_COPYIN, n);
    unmap(n);
}

static void present_there(uint64_t round)
{
    char *p = arrays + APART * one_of(round, count);

    acc_copyin(p, LEN);
    acc_delete(p, LEN);
}

/* Behind all others. */
static void birth_here(uint64_t round)
{
    (void)round;
    map(LW_COPYIN, MOST);
    unmap(MOST);
}

static void birth_there(uint64_t round)
{
    char *p = arrays + APART * (size_t)MOST;

    (void)round;
    acc_copyin(p, LEN);
    acc_delete(p, LEN);
}

/* Right behind one of the others, and each time behind another one. */
static void between_here(uint64_t round)
{
    uint64_t start = address(one_of(round, count)) + LEN;

    map_at(LW_COPYIN, start);
    unmap_at(start);
}

static void between_there(uint64_t round)
{
    char *p = arrays + APART * one_of(round, count) + LEN;

    acc_copyin(p, LEN);
    acc_delete(p, LEN);
}

static void update_here(uint64_t round)
{
    lw_item item = {.clause = LW_DEVICE, .start = address(one_of(round, count)), .len = 16};

    must(lw_update(&table, 0, &item, 1, 0, LW_ASYNC_SYNC, &fault), "update");
}

static void update_there(uint64_t round)
{
    acc_update_device(arrays + APART * one_of(round, count), 16);
}

static void region_here(uint64_t round)
{
    lw_item items[FEW];
    uint64_t region;

    for (size_t n = 0; n < FEW; n++) {
        items[n] = (lw_item){.clause = LW_PRESENT, .start = address(one_of(FEW * round + n, count)), .len = LEN};
    }
    must(lw_enter(&table, 0, items, FEW, &region, &fault), "enter");
    must(lw_exit(&table, region, &fault), "exit");
}

static void region_there(uint64_t round)
{
    static char *a, *b, *c, *d, *e, *f, *g, *h;
    static char **const places[FEW] = {&a, &b, &c, &d, &e, &f, &g, &h};

    for (size_t n = 0; n < FEW; n++) {
        *places[n] = arrays + APART * one_of(FEW * round + n, count);
    }
#pragma acc data present(a[0:LEN], b[0:LEN], c[0:LEN], d[0:LEN], e[0:LEN], f[0:LEN], g[0:LEN], h[0:LEN])
    {
    }
}

static void many_here(uint64_t round)
{
    lw_item items[MANY];

    for (size_t n = 0; n < MANY; n++) {
        items[n] = (lw_item){.clause = LW_COPYIN, .start = address(one_of(MANY * round + n, count)), .len = LEN};
    }
    must(lw_enter_data(&table, 0, items, MANY, LW_ASYNC_SYNC, &fault), "enter data");
    for (size_t n = 0; n < MANY; n++) {
        items[n].clause = LW_DELETE;
    }
    must(lw_exit_data(&table, 0, items, MANY, 0, LW_ASYNC_SYNC, &fault), "exit data");
}

static void many_there(uint64_t round)
{
    for (size_t n = 0; n < MANY; n++) {
        acc_copyin(arrays + APART * one_of(MANY * round + n, count), LEN);
    }
    for (size_t n = 0; n < MANY; n++) {
        acc_delete(arrays + APART * one_of(MANY * round + n, count), LEN);
    }
}

typedef struct job {
    const char *name;
    void (*here)(uint64_t round);
    void (*there)(uint64_t round);
    uint64_t rounds; /* in one turn */
} job;

/* libgomp gets 64 items one by one. */
static const job jobs[] = {
    {"pair on present bytes", present_here, present_there, ROUNDS},
    {"birth and its end", birth_here, birth_there, ROUNDS},
    {"birth between others", between_here, between_there, ROUNDS},
    {"update of 16 bytes", update_here, update_there, ROUNDS},
    {"region over eight", region_here, region_there, ROUNDS / FEW},
    {"64 items and back", many_here, many_there, ROUNDS / MANY},
};

/* ---- Runs ---- */

static void fold(void)
{
    uint64_t folded;

    must(lw_rebase(&table, &folded, &fault), "rebase");
}

static void make(void)
{
    lw_limits limits = LW_LIMITS;
    uint64_t made;

    limits.host = limits.device = MEMORY;
    limits.trace_cap = TRACE;
    must(lw_table_new(&table, &limits, &fault), "table");
    for (size_t n = 0; n < TRACE; n++) {
        must(lw_wait(&table, 0, LW_NO_QUEUE_GIVEN, &made, &fault), "wait");
    }
    fold();
}

static double turn(void (*run)(uint64_t), uint64_t rounds)
{
    uint64_t from = now();

    for (uint64_t n = 0; n < rounds; n++) {
        run(n);
    }
    return (double)(now() - from) / (double)rounds;
}

static void compare(const job *job)
{
    double here = 1e18, there = 1e18;

    for (size_t n = 0; n < TURNS; n++) {
        fold();
        double ours = turn(job->here, job->rounds), theirs = turn(job->there, job->rounds);

        here = ours < here ? ours : here;
        there = theirs < there ? theirs : there;
    }
    printf("%-22s %7zu %9.0f %9.0f %9.2f\n", job->name, count, here, there, here / there);
}

int main(void)
{
    static const size_t counts[] = {1, 100, 1000, 10000, MOST};

    arrays = calloc(MOST + 1, APART);
    if (!arrays || acc_get_device_type() == acc_device_host) {
        fprintf(stderr, "beside: no memory, or no device with memory of its own\n");
        return EXIT_FAILURE;
    }
    make();
    printf("%-22s %7s %9s %9s %9s\n", "ns", "ranges", "here", "libgomp", "ratio");
    for (size_t n = 0; n < sizeof counts / sizeof *counts; n++) {
        for (; count < counts[n]; count++) {
            map(LW_COPYIN, count);
            acc_copyin(arrays + APART * count, LEN);
        }
        for (size_t j = 0; j < sizeof jobs / sizeof *jobs; j++) {
            if (count >= FEW || j < 4) {
                compare(&jobs[j]);
            }
        }
    }
    lw_table_end(&table);
    free(arrays);
    return EXIT_SUCCESS;
}
