/* The report, beside what the queries answer. */
#include "stress.h"
#include <inttypes.h>
#include <stdarg.h>
#include <string.h>

size_t report_of(run *run, char *report)
{
    uint64_t len = 0;
    lw_fault fault;
    uint32_t status = lw_report(&run->table, report, REPORT_MAX, &len, &fault);

    if (status != LW_DONE) {
        fail(run, "the report is refused", status);
    }
    return len;
}

/* A text that grows. */
typedef struct text {
    char at[REPORT_MAX];
    size_t len;
} text;

__attribute__((format(printf, 2, 3))) static void add(text *text, const char *format, ...)
{
    va_list arguments;

    va_start(arguments, format);
    text->len += (size_t)vsnprintf(text->at + text->len, sizeof text->at - text->len, format, arguments);
    va_end(arguments);
}

/* The number that a query answers. */
static uint64_t answer(const run *run, uint32_t status, const uint64_t *number)
{
    if (status != LW_DONE) {
        fail(run, "a query that always finds something is refused", status);
    }
    return *number;
}

/* The attached pointers of a mapped range: their places are multiples of 8. */
static void add_pointers(run *run, text *text, const lw_mapped_range *range)
{
    for (uint64_t at = (range->start + 7) / 8 * 8; at + 8 <= range->start + range->len; at += 8) {
        uint64_t count = 0;

        if (answer(run, lw_attachment(&run->table, run->device, at, &count), &count) != 0) {
            add(text, "pointer 0x%" PRIx64 " count %" PRIu64 "\n", at, count);
        }
    }
}

/* The queries by a section tell of a range what the walk over the ranges tells. */
static void check_range(run *run, const lw_mapped_range *range)
{
    lw_counters_of counters;
    uint64_t place = 0;
    uint64_t present = 0;

    if (lw_counters(&run->table, run->device, range->start, range->len, &counters) != LW_DONE ||
        counters.structured != range->structured || counters.dynamic != range->dynamic) {
        fail(run, "a range has other counters", 0);
    }
    if (lw_device_address(&run->table, run->device, range->start, &place) != LW_DONE || place != range->place) {
        fail(run, "a range has another place", 0);
    }
    if (lw_is_present(&run->table, run->device, range->start, range->len, &present) != LW_DONE || present != 1) {
        fail(run, "a range is not present", 0);
    }
}

/* The mapped ranges with their pointers, and how many bytes of the device they take. */
static uint64_t add_ranges(run *run, text *text)
{
    lw_mapped_range range;
    uint64_t taken = 0;

    for (uint64_t from = 0; lw_mapped(&run->table, run->device, from, &range) == LW_DONE; from = range.start + 1) {
        add(text, "map 0x%" PRIx64 " %" PRIu64 " at 0x%" PRIx64 " structured %" PRIu64 " dynamic %" PRIu64 "%s\n",
            range.start, range.len, range.place, range.structured, range.dynamic, range.lent == 1 ? " lent" : "");
        add_pointers(run, text, &range);
        check_range(run, &range);
        taken += (range.len + 15) / 16 * 16;
    }
    return taken;
}

/* The blocks whose mapping has ended are in the report alone, from a line on that is the device's first. They take the
   rest of what is used. */
static uint64_t add_ended(run *run, text *text, const char *first)
{
    uint64_t taken = 0;

    for (const char *line = strchr(first, '\n') + 1;
         strncmp(line, "regions ", 8) != 0 && strncmp(line, "device ", 7) != 0; line = strchr(line, '\n') + 1) {
        uint64_t place;
        uint64_t size;
        uint64_t pins;

        if (strncmp(line, "ended ", 6) != 0) {
            continue;
        }
        if (sscanf(line, "ended 0x%" SCNx64 " %" SCNu64 " pins %" SCNu64, &place, &size, &pins) != 3 || pins == 0) {
            fail(run, "an ended block has no pins", 0);
        }
        add(text, "ended 0x%" PRIx64 " %" PRIu64 " pins %" PRIu64 "\n", place, size, pins);
        taken += size;
    }
    return taken;
}

/* Each copy that waits in a queue is of some bytes, on one way or the other, and there is none behind the last. */
static void check_queue(run *run, uint64_t queue, uint64_t len)
{
    lw_waiting_copy copy;

    for (uint64_t place = 0; place < len; place++) {
        if (lw_transfer(&run->table, run->device, queue, place, &copy) != LW_DONE || copy.block == 0 ||
            copy.len == 0 || copy.start < LW_HOST_BASE ||
            copy.start + copy.len > LW_HOST_BASE + run->profile->host || (copy.way != LW_IN && copy.way != LW_OUT)) {
            fail(run, "a copy that waits is none", 0);
        }
    }
    if (lw_transfer(&run->table, run->device, queue, len, &copy) != LW_ABSENT) {
        fail(run, "a copy waits behind the last one", 0);
    }
}

static void add_queues(run *run, text *text)
{
    for (uint64_t queue = 0; queue < QUEUES; queue++) {
        uint64_t len = 0;

        if (answer(run, lw_queue_len(&run->table, run->device, queue, &len), &len) != 0) {
            add(text, "queue %" PRIu64 " length %" PRIu64 "\n", queue, len);
        }
        check_queue(run, queue, len);
    }
}

/* What the report has of the device of the run, behind the line that tells how much of it is used. */
static void add_device(run *run, text *text, const char *report)
{
    char name[32];
    const char *first = report;
    uint64_t used = 0;

    answer(run, lw_used(&run->table, run->device, &used), &used);
    if (run->devices != 1) {
        snprintf(name, sizeof name, "\ndevice %" PRIu64 " used ", run->device);
        first = strstr(report, name);
        if (first == NULL) {
            fail(run, "the report has no line of a device", 0);
        }
        first++;
        add(text, "device %" PRIu64 " used %" PRIu64 "\n", run->device, used);
    } else {
        add(text, " used %" PRIu64 "\n", used);
    }
    used -= add_ranges(run, text);
    used -= add_ended(run, text, first);
    add_queues(run, text);
    if (used != 0) {
        fail(run, "the numbers of the report do not add up", 0);
    }
}

void check_report(run *run, const char *report, size_t len)
{
    static text text;
    const uint64_t device = run->device;
    uint64_t regions = 0;
    uint64_t events = 0;

    text.len = 0;
    answer(run, lw_regions(&run->table, &regions), &regions);
    answer(run, lw_events(&run->table, &events), &events);
    add(&text, "host %" PRIu64 " device %" PRIu64, run->profile->host, run->profile->device);
    if (run->devices != 1) {
        add(&text, " devices %" PRIu64 "\n", run->devices);
    }
    for (run->device = 0; run->device < run->devices; run->device++) {
        add_device(run, &text, report);
    }
    run->device = device;
    add(&text, "regions %" PRIu64 " events %" PRIu64 "\n", regions, events);
    if (text.len != len || memcmp(text.at, report, len) != 0 || regions != run->depth) {
        fail(run, "the report does not say what the queries answer", 0);
    }
}
