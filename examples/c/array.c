/*
 * Maps an array, runs a kernel in C on the bytes that the device has of it, and prints the report of the table. It
 * makes the calls that a compiler would make its runtime do for
 *
 *     #pragma acc data copy(a[0:5])
 *     {
 *         #pragma acc parallel loop present(a)
 *         for (int i = 0; i < 5; i++) {
 *             a[i] = 2 * a[i];
 *         }
 *     }
 */
#include "lamwiest.h"
#include <inttypes.h>
#include <stdio.h>
#include <stdlib.h>

enum { COUNT = 5, BYTES = COUNT * sizeof(int32_t) };

static lw_table table = LW_NO_TABLE;
static lw_fault fault;

/* Ends the program where a call was refused, and says which call and why. */
static void must(uint32_t status, const char *call)
{
    char text[LW_FAULT_TEXT_SIZE];

    if (status != LW_DONE) {
        fprintf(stderr, "%s: refused %s\n", call, lw_fault_text(&fault, text, sizeof text, NULL));
        exit(EXIT_FAILURE);
    }
}

/* Prints the report. The first call is refused, and tells how long the text is. */
static void print_report(void)
{
    uint64_t len = 0;
    char *text;

    lw_report(&table, NULL, 0, &len, &fault);
    text = malloc(len + 1);
    if (text == NULL) {
        exit(EXIT_FAILURE);
    }
    must(lw_report(&table, text, len + 1, &len, &fault), "report");
    fputs(text, stdout);
    free(text);
}

/* What the device does. */
static void kernel(int32_t *a, size_t count)
{
    for (size_t i = 0; i < count; i++) {
        a[i] = 2 * a[i];
    }
}

/* The compute construct: the device's bytes of the array are lent, changed and brought back. */
static void run_kernel(uint64_t region, uint64_t array)
{
    uint64_t lease = 0;
    int32_t a[COUNT];

    must(lw_lend(&table, region, array, BYTES, &lease, &fault), "lend");
    must(lw_lease_read(&table, lease, a, BYTES, &fault), "lease read");
    kernel(a, COUNT);
    must(lw_lease_write(&table, lease, a, BYTES, &fault), "lease write");
    must(lw_gather(&table, lease, &fault), "gather");
}

int main(void)
{
    int32_t a[COUNT] = {1, 2, 3, 4, 5};
    lw_item item = {.clause = LW_COPY, .len = BYTES};
    lw_limits limits = LW_LIMITS;
    uint64_t region = 0, folded = 0;

    limits.host = 4096;
    must(lw_table_new(&table, &limits, &fault), "table");
    must(lw_array(&table, BYTES, &item.start, &fault), "array");
    must(lw_host_write(&table, item.start, a, BYTES, &fault), "host write");

    must(lw_enter(&table, 0, &item, 1, &region, &fault), "data");
    run_kernel(region, item.start);
    print_report();
    must(lw_exit(&table, region, &fault), "end data");
    print_report();

    /* A program that goes on does this before trace_cap events are stored. */
    must(lw_rebase(&table, &folded, &fault), "rebase");
    printf("events folded: %" PRIu64 "\n", folded);

    must(lw_host_read(&table, item.start, a, BYTES, &fault), "host read");
    for (size_t i = 0; i < COUNT; i++) {
        printf("a[%zu] = %" PRId32 "\n", i, a[i]);
    }
    lw_table_end(&table);
    return EXIT_SUCCESS;
}
