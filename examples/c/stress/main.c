/*
 * Makes random calls of the library, and writes the same as a script for accrun, with what accrun has to answer.
 *
 *   stress PROFILE SEED CALLS FOLDER
 *
 * makes so many calls of a profile, and writes into the folder: `script`; `args`, the options with which accrun has to
 * run it; `stdout`, `stderr` and `status`, what it has to print and to end with. Behind each thousand calls the
 * report is asked for, and a copy takes the place of the table unless a lease is out. On standard output the program
 * says how often each status was answered to a statement, and how often to a call that no script can say. It ends with
 * status 1 where the library answers what it must not.
 */
#include "stress.h"
#include <inttypes.h>
#include <stdlib.h>
#include <string.h>

enum { TURNS_TO_A_REPORT = 1000 };

static const profile PROFILES[] = {
    {.name = "usual",
     .host = 65536, .device = 65536, .arrays = 8, .longest = 100, .items = 4, .wild = 4, .async = 4, .queues = 16,
     .weights = {[ENTER] = 9, [LEAVE] = 9, [ENTER_DATA] = 12, [EXIT_DATA] = 12, [UPDATE] = 10, [WAIT] = 3, [STEP] = 8,
                 [WRITE] = 8, [POINT] = 6, [KERNEL] = 8, [ASK] = 9, [NOTHING] = 1, [UNSAID] = 5}},
    /* Less device memory than arrays. */
    {.name = "crowded",
     .host = 1024, .device = 256, .arrays = 8, .longest = 112, .items = 3, .wild = 6, .async = 6, .queues = 16,
     .weights = {[ENTER] = 12, [LEAVE] = 11, [ENTER_DATA] = 16, [EXIT_DATA] = 14, [UPDATE] = 8, [WAIT] = 4, [STEP] = 8,
                 [WRITE] = 6, [POINT] = 3, [KERNEL] = 6, [ASK] = 6, [NOTHING] = 1, [UNSAID] = 5}},
    /* Many copies for a few queues, which are rarely stepped. */
    {.name = "queued",
     .host = 4096, .device = 8192, .arrays = 6, .longest = 64, .items = 24, .wild = 6, .async = 1, .queues = 3,
     .weights = {[ENTER] = 6, [LEAVE] = 6, [ENTER_DATA] = 24, [EXIT_DATA] = 12, [UPDATE] = 30, [WAIT] = 1, [STEP] = 6,
                 [WRITE] = 4, [POINT] = 2, [KERNEL] = 2, [ASK] = 4, [NOTHING] = 1, [UNSAID] = 2}},
    /* More regions than may be open. */
    {.name = "deep",
     .host = 65536, .device = 65536, .arrays = 6, .longest = 80, .items = 3, .wild = 8, .async = 6, .queues = 16,
     .weights = {[ENTER] = 38, [LEAVE] = 16, [ENTER_DATA] = 6, [EXIT_DATA] = 8, [UPDATE] = 5, [WAIT] = 3, [STEP] = 3,
                 [WRITE] = 4, [POINT] = 3, [KERNEL] = 6, [ASK] = 4, [NOTHING] = 1, [UNSAID] = 3}},
    /* Few places for pointers, so that many of them are attached, and again. */
    {.name = "pointers",
     .host = 4096, .device = 4096, .arrays = 5, .longest = 48, .items = 5, .wild = 5, .async = 5, .queues = 4,
     .weights = {[ENTER] = 10, [LEAVE] = 9, [ENTER_DATA] = 20, [EXIT_DATA] = 12, [UPDATE] = 9, [WAIT] = 4, [STEP] = 4,
                 [WRITE] = 2, [POINT] = 16, [KERNEL] = 4, [ASK] = 6, [NOTHING] = 1, [UNSAID] = 3}},
    /* Four devices, each with some of the arrays. */
    {.name = "devices",
     .host = 4096, .device = 1024, .devices = 4, .arrays = 6, .longest = 80, .items = 3, .wild = 6, .async = 4,
     .queues = 4,
     .weights = {[ENTER] = 9, [LEAVE] = 9, [ENTER_DATA] = 14, [EXIT_DATA] = 11, [UPDATE] = 9, [WAIT] = 3, [STEP] = 8,
                 [WRITE] = 7, [POINT] = 6, [KERNEL] = 8, [ASK] = 9, [NOTHING] = 1, [UNSAID] = 5, [TURN] = 10}},
    /* Short statements that are rarely refused: with some 300,000 of them the trace is full. */
    {.name = "long",
     .host = 512, .device = 65536, .arrays = 4, .longest = 48, .items = 1, .wild = 24, .async = 8, .queues = 16,
     .weights = {[ENTER] = 6, [LEAVE] = 6, [ENTER_DATA] = 12, [EXIT_DATA] = 14, [UPDATE] = 6, [WAIT] = 12, [STEP] = 1,
                 [WRITE] = 16, [POINT] = 16, [KERNEL] = 3, [ASK] = 1, [NOTHING] = 6, [UNSAID] = 1}},
};

_Noreturn void fail(const run *run, const char *what, uint32_t status)
{
    fprintf(stderr, "stress: behind line %" PRIu64 ": %s (status %" PRIu32 ")\n", run->line, what, status);
    exit(EXIT_FAILURE);
}

static FILE *file_in(const char *folder, const char *name)
{
    char path[4096];
    FILE *file = NULL;

    if (snprintf(path, sizeof path, "%s/%s", folder, name) < (int)sizeof path) {
        file = fopen(path, "w");
    }
    if (file == NULL) {
        fprintf(stderr, "stress: %s/%s cannot be written\n", folder, name);
        exit(EXIT_FAILURE);
    }
    return file;
}

static void close_file(FILE *file)
{
    if (fclose(file) != 0) {
        fprintf(stderr, "stress: a file cannot be written\n");
        exit(EXIT_FAILURE);
    }
}

/* Arrays of random lengths, each at the next multiple of 16, as scripts place them. */
static void draw_arrays(run *run)
{
    uint64_t start = LW_HOST_BASE;

    for (uint32_t i = 0; i < run->profile->arrays; i++) {
        uint64_t len = 1 + draw(run, run->profile->longest);

        run->arrays[i] = (array){.start = start, .len = len};
        start += (len + 15) / 16 * 16;
    }
}

/* A new table, with counted traces or with full ones. */
static void begin(run *run, const char *folder)
{
    FILE *args = file_in(folder, "args");
    lw_limits limits = LW_LIMITS;
    lw_fault fault;
    uint64_t start = 0;

    limits.host = run->profile->host;
    limits.device = run->profile->device;
    limits.full = run->is_full = is_drawn(run, 3);
    limits.devices = run->devices;
    if (lw_table_new(&run->table, &limits, &fault) != LW_DONE) {
        fail(run, "there is no table", fault.status);
    }
    for (uint32_t i = 0; i < run->profile->arrays; i++) {
        if (lw_array(&run->table, run->arrays[i].len, &start, &fault) != LW_DONE || start != run->arrays[i].start) {
            fail(run, "an array is elsewhere than in a script", fault.status);
        }
    }
    fprintf(args, "--host %" PRIu64 " --device %" PRIu64 " --devices %" PRIu64 " --threads %" PRIu64 "%s\n",
            limits.host, limits.device, limits.devices, 1 + draw(run, 3), run->is_full ? " --trace full" : "");
    close_file(args);
}

/* A kind of call, by the weights. Where no region is open, one is entered in place of what needs one. */
static kind draw_kind(run *run)
{
    uint32_t all = 0;
    uint64_t at;
    kind kind = ENTER;

    for (int i = 0; i < KINDS; i++) {
        all += run->profile->weights[i];
    }
    at = draw(run, all);
    while (at >= run->profile->weights[kind]) {
        at -= run->profile->weights[kind];
        kind++;
    }
    return run->depth == 0 && (kind == LEAVE || kind == KERNEL) ? ENTER : kind;
}

/* The exit from all regions, which a full trace refuses. */
static void leave_all(run *run)
{
    size_t depth = 0;

    while (run->depth != 0 && run->depth != depth) {
        depth = run->depth;
        say_end_data(run);
    }
}

/* Ends the table while a block is lent, where a region can be entered: nothing may be lost of that. */
static void end_table(run *run)
{
    const lw_item items[] = {{LW_CREATE, run->arrays[0].start, run->arrays[0].len, 0}};
    uint64_t region;
    uint64_t lease;
    lw_fault fault;

    if (lw_enter(&run->table, 0, items, 1, &region, &fault) == LW_DONE) {
        lw_lend(&run->table, region, items[0].start, items[0].len, &lease, &fault);
    }
    lw_table_end(&run->table);
    lw_table_end(&run->table);
}

/* What accrun tells and ends with. A region that is still open is a fault at the end of the script. */
static void write_end(const run *run, const char *folder)
{
    FILE *err = file_in(folder, "stderr");
    FILE *status = file_in(folder, "status");
    uint64_t refused = 0;

    for (uint32_t i = 0; i < STATUSES; i++) {
        refused += i != LW_DONE && i != LW_ABSENT ? run->said[i] : 0;
    }
    if (run->depth != 0) {
        fprintf(err, "accrun: line %" PRIu64 ": Unclosed\n", run->line + 1);
    }
    fprintf(status, "%d\n", run->depth != 0 ? 2 : refused != 0 ? 1 : 0);
    close_file(err);
    close_file(status);
}

static void write_counts(const run *run)
{
    for (uint32_t i = 0; i < STATUSES; i++) {
        if (lw_status_name(i)[0] != '\0') {
            printf("%-18s %10" PRIu64 " %10" PRIu64 "\n", lw_status_name(i), run->said[i], run->unsaid[i]);
        }
    }
}

/* Goes on with a copy of the table, which has the same. A lease that a full trace keeps out leaves no copy. */
static void copy_back(run *run)
{
    lw_table copy = LW_NO_TABLE;
    uint64_t same = 0;
    lw_fault fault;
    const uint32_t status = lw_table_copy(&run->table, &copy, &fault);

    if (status != LW_LENT &&
        (status != LW_DONE || lw_table_same(&run->table, &copy, &same, &fault) != LW_DONE || same != 1 ||
         lw_table_copy(&copy, &run->table, &fault) != LW_DONE)) {
        fail(run, "a copy of the table", fault.status);
    }
    lw_table_end(&copy);
}

static void make_calls(run *run, uint64_t calls)
{
    say_arrays(run);
    for (uint64_t n = 1; n <= calls; n++) {
        say_statement(run, draw_kind(run));
        if (n % TURNS_TO_A_REPORT == 0 || n == calls) {
            copy_back(run);
            say_report(run);
        }
    }
    leave_all(run);
    say_report(run);
}

static const profile *profile_of(const char *name)
{
    for (size_t i = 0; i < sizeof PROFILES / sizeof *PROFILES; i++) {
        if (strcmp(PROFILES[i].name, name) == 0) {
            return &PROFILES[i];
        }
    }
    fprintf(stderr, "stress: there is no profile %s\n", name);
    exit(2);
}

int main(int argc, char **argv)
{
    static run run = {.table = LW_NO_TABLE};

    if (argc != 5) {
        fprintf(stderr, "usage: stress PROFILE SEED CALLS FOLDER\n");
        return 2;
    }
    run.profile = profile_of(argv[1]);
    run.devices = run.profile->devices != 0 ? run.profile->devices : 1;
    run.state = strtoull(argv[2], NULL, 10) * UINT64_C(0x9E3779B97F4A7C15) + 1;
    run.script = file_in(argv[4], "script");
    run.wanted = file_in(argv[4], "stdout");
    draw_arrays(&run);
    begin(&run, argv[4]);
    make_calls(&run, strtoull(argv[3], NULL, 10));
    end_table(&run);
    write_end(&run, argv[4]);
    close_file(run.script);
    close_file(run.wanted);
    write_counts(&run);
    return EXIT_SUCCESS;
}
