/*
 * Calls of the library whose arguments are the bytes of an input, for libFuzzer. It looks for what the sanitizers see,
 * for an answer that the header does not name, for a fault that is not the answer, and for a refusal that changed
 * something.
 */
#include "lamwiest.h"
#include <stdlib.h>
#include <string.h>

enum { ITEMS = 70, BYTES = 300, REPORT = 1 << 16 };

static const uint8_t *input;
static size_t left;

/* The next number of the input, of so many bytes; 0 behind its end. */
static uint64_t take(size_t size)
{
    uint64_t number = 0;

    for (size_t n = 0; n < size && left != 0; n++, left--) {
        number = number << 8 | *input++;
    }
    return number;
}

/* Most often a small number, and else any. */
static uint64_t number(void)
{
    uint64_t small = take(1);

    return small < 240 ? small % 24 : take(8);
}

/* Most often an address among the first of host memory or of a device. */
static uint64_t address(void)
{
    switch (take(1) % 8) {
    case 0:
        return take(8);
    case 1:
        return LW_DEVICE_BASE_OF(take(1) % 5) + take(1);
    default:
        return LW_HOST_BASE + 8 * take(1);
    }
}

static lw_async async(void)
{
    return lw_queue((int64_t)(number() - 2));
}

static size_t items(lw_item *list)
{
    const size_t drawn = take(1), count = drawn < 248 ? drawn % 5 : drawn % (ITEMS + 1);

    for (size_t n = 0; n < count; n++) {
        list[n] = (lw_item){.clause = (uint32_t)(take(1) % 15), .start = address(), .len = number() * 8};
        list[n].pointer = take(1) % 4 == 0 ? address() : 0;
    }
    return count;
}

static void must(int holds)
{
    if (!holds) {
        abort();
    }
}

static const char *report(lw_table *table)
{
    static char texts[2][REPORT];
    static size_t which;
    char *text = texts[which++ % 2];

    must(lw_report(table, text, REPORT, NULL, NULL) == LW_DONE);
    return text;
}

/* A directive, or what is none, as an event names it. */
static lw_stored_event directive(void)
{
    lw_stored_event asked = {.kind = (uint32_t)(take(1) % 12), .option = (uint32_t)take(1) % 2, .device = take(1) % 5};

    asked.queue = take(1) % 2 == 0 ? LW_NO_QUEUE_GIVEN : number();
    asked.region = number();
    return asked;
}

static uint32_t direct(lw_table *table, uint64_t what, lw_fault *fault)
{
    lw_item list[ITEMS];
    const size_t count = items(list);
    const uint64_t device = take(1) % 5;
    lw_stored_event asked;
    uint64_t told;

    switch (what % 7) {
    case 0:
        return lw_enter(table, device, list, count, &told, fault);
    case 1:
        return lw_exit(table, number(), fault);
    case 2:
        return lw_enter_data(table, device, list, count, async(), fault);
    case 3:
        return lw_exit_data(table, device, list, count, (uint32_t)take(1) % 2, async(), fault);
    case 4:
        return lw_update(table, device, list, count, (uint32_t)take(1) % 2, async(), fault);
    case 5:
        asked = directive();
        return lw_do(table, &asked, list, count, &told, fault);
    default:
        return take(1) % 2 ? lw_wait(table, device, number(), &told, fault)
                           : lw_step(table, device, number(), &told, fault);
    }
}

/* Writes the bytes of a lease where they lie. */
static uint32_t work(lw_table *table, uint64_t lease, int byte, lw_fault *fault)
{
    void *at = NULL;
    uint64_t len = 0;
    uint32_t status = lw_lease_bytes(table, lease, &at, &len, fault);

    must((status == LW_DONE) == (at != NULL));
    if (at != NULL) {
        memset(at, byte, len);
    }
    return status;
}

/* Makes a few events. Those before one that is refused stay, so that counts as if all were made. */
static uint32_t run(lw_table *table, lw_fault *fault)
{
    static const uint8_t bytes[BYTES];
    lw_item list[ITEMS];
    lw_stored_event asked[3];
    const size_t count = items(list);
    size_t wanted;
    uint64_t done = UINT64_MAX;
    uint32_t status;

    for (size_t n = 0; n < 3; n++) {
        asked[n] = directive();
        asked[n].start = address();
        asked[n].len = take(1) % (BYTES / 3);
        asked[n].count = count / 3;
    }
    wanted = take(1) % 4;
    status = lw_run(table, asked, wanted, list, bytes, &done, fault);
    must(status == fault->status && done <= wanted && (status == LW_DONE) == (done == wanted));
    if (done != 0) {
        *fault = (lw_fault){.status = LW_DONE};
    }
    return fault->status;
}

/* Goes on with a copy of the table, which has the same. */
static uint32_t copy_back(lw_table *table, lw_fault *fault)
{
    lw_table copy = LW_NO_TABLE;
    uint64_t same = 0;
    uint32_t status = lw_table_copy(table, &copy, fault);

    if (status == LW_DONE) {
        must(lw_table_same(table, &copy, &same, NULL) == LW_DONE && same == 1);
        status = lw_table_copy(&copy, table, fault);
        must(status == LW_DONE);
    }
    lw_table_end(&copy);
    return status;
}

/* Writes, loans, folds and copies. */
static uint32_t move(lw_table *table, uint64_t what, lw_fault *fault)
{
    uint8_t bytes[BYTES];
    const size_t len = take(1) + take(1) % 8;
    uint64_t told;

    memset(bytes, (int)take(1), sizeof bytes);
    switch (what % 10) {
    case 0:
        return lw_host_write(table, address(), bytes, len, fault);
    case 1:
        return lw_lend(table, number(), address(), number() * 8, &told, fault);
    case 2:
        return lw_lease_write(table, number(), bytes, number() * 8 % BYTES, fault);
    case 3:
        return lw_gather(table, number(), fault);
    case 4:
        return lw_rebase(table, &told, fault);
    case 5:
        return work(table, number(), (int)bytes[0], fault);
    case 6:
        return take(1) % 8 == 0 ? lw_table_reset(table, fault) : lw_gather(table, number(), fault);
    case 7:
        return run(table, fault);
    case 8:
        return copy_back(table, fault);
    default:
        return lw_array(table, take(1) % 4 == 0 ? take(8) : take(1), &told, fault);
    }
}

/* Judges a directive, or what is none. */
static uint32_t judge(lw_table *table, lw_fault *fault)
{
    lw_item list[ITEMS];
    const size_t count = items(list);
    const lw_stored_event asked = directive();

    return lw_judge(table, &asked, list, count, fault);
}

/* What changes nothing in any case. */
static uint32_t look(lw_table *table, uint64_t what, lw_fault *fault)
{
    uint8_t bytes[BYTES];
    const uint64_t device = take(1) % 5, at = address(), len = number() * 8;
    lw_mapped_range range;
    lw_attached_pointer attached;
    lw_ended_mapping ended;
    lw_counters_of counters;
    lw_item_did did[4];
    lw_free_range free_range;
    lw_left_over left_over;
    lw_limits limits = LW_LIMITS;
    lw_lent_lease lent;
    lw_stored_event event;
    lw_item named;
    lw_waiting_copy copy;
    lw_held_item held;
    uint64_t told;

    switch (what % 24) {
    case 0:
        return lw_host_read(table, at, bytes, len % BYTES, fault);
    case 1:
        return lw_device_read(table, device, at, bytes, len % BYTES, fault);
    case 2:
        return lw_lease_read(table, number(), bytes, len % BYTES, fault);
    case 3:
        fault->status = lw_is_present(table, device, at, len, &told);
        break;
    case 4:
        fault->status = lw_device_address(table, device, at, &told);
        break;
    case 5:
        fault->status = lw_counters(table, device, at, len, &counters);
        break;
    case 6:
        fault->status = lw_attached(table, device, at, len, &attached);
        break;
    case 7:
        fault->status = lw_mapped(table, device, at, &range);
        break;
    case 8:
        fault->status = lw_range_at(table, device, at, &range);
        break;
    case 9:
        fault->status = lw_ended_block(table, device, at, &ended);
        break;
    case 10:
        fault->status = lw_queue_len(table, device, number(), &told);
        break;
    case 11:
        fault->status = lw_hole(table, device, at, &free_range);
        break;
    case 12:
        fault->status = lw_left(table, &left_over);
        break;
    case 13:
        fault->status = lw_limits_of(table, &limits);
        break;
    case 14:
        fault->status = lw_attachment(table, device, at, &told);
        break;
    case 15:
        fault->status = lw_innermost(table, &told);
        break;
    case 16:
        fault->status = lw_lease(table, number(), &lent);
        break;
    case 17:
        fault->status = lw_event(table, number(), &event);
        break;
    case 18:
        fault->status = lw_event_item(table, number(), number(), &named);
        break;
    case 19:
        return lw_event_bytes(table, number(), bytes, len % BYTES, fault);
    case 20:
        fault->status = lw_transfer(table, device, number(), number(), &copy);
        break;
    case 21:
        fault->status = lw_held(table, number(), number(), &held);
        break;
    case 22:
        return judge(table, fault);
    default:
        fault->status = lw_dids(table, did, take(1) % 5);
    }
    return fault->status;
}

/* Runs the rest of the input as a script. */
static void play(const lw_limits *limits)
{
    static char text[REPORT];
    const lw_limits *drawn = take(1) % 4 != 0 ? limits : NULL;
    const size_t size = take(2);
    lw_fault fault;
    uint64_t len = 0;
    const uint32_t status = lw_script(drawn, (const char *)input, left, text, size, &len, &fault);

    must(status == fault.status && *lw_status_name(status) != '\0');
    if (status == LW_DONE || status == LW_SCRIPT) {
        must(len < size && text[len] == '\0');
    } else {
        must(status == LW_BAD_LENGTH ? len >= size && fault.value == len + 1 : len == 0);
    }
    left = 0;
}

int LLVMFuzzerTestOneInput(const uint8_t *data, size_t size)
{
    lw_table table = LW_NO_TABLE;
    lw_limits limits = LW_LIMITS;

    input = data;
    left = size;
    limits.host = 16 * (1 + take(1));
    limits.device = 16 * (1 + take(1) % 64);
    limits.regions = take(1) % 8;
    limits.tickets = take(1) % 4 == 0 ? 1 + take(1) : 0;
    limits.counter_max = take(1) % 4;
    limits.queue_cap = take(1) % 4;
    limits.trace_cap = take(1) % 4 == 0 ? 1 + take(1) : 0;
    limits.full = take(1) % 3;
    limits.devices = take(1) % 6;
    if (take(1) % 8 == 7) {
        play(&limits);
    }
    while (left != 0) {
        const uint64_t what = take(1);
        const int compares = table.at != NULL && take(1) % 4 == 0;
        const char *before = compares ? report(&table) : "";
        lw_fault fault = {.status = LW_DONE};
        uint32_t status;

        if (table.at == NULL) {
            status = lw_table_new(&table, &limits, &fault);
            limits.devices = limits.full = 1;
        } else if (what < 160) {
            status = direct(&table, what, &fault);
        } else if (what < 220) {
            status = move(&table, what, &fault);
        } else {
            status = look(&table, what, &fault);
        }
        must(status == fault.status && *lw_status_name(status) != '\0');
        if (compares && (status != LW_DONE || what >= 220)) {
            must(strcmp(before, report(&table)) == 0);
        }
    }
    lw_table_end(&table);
    return 0;
}
