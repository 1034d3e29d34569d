/* What no script can say: arrays and numbers that are wrong in C alone, handles and leases. */
#include "stress.h"
#include <string.h>

#define UNTOUCHED UINT64_C(0xEEEEEEEEEEEEEEEE)

#define LENGTH_OF(array) (sizeof(array) / sizeof *(array))

/* ---- What is wanted ---- */

static lw_fault refusal(uint32_t status, uint64_t item, uint64_t value)
{
    return (lw_fault){.status = status, .item = item, .value = value};
}

/* The refusal of a call that would be an event: a full trace is told first. */
static lw_fault unless_full(run *run, lw_fault wanted)
{
    uint64_t events = 0;

    lw_events(&run->table, &events);
    return events == EVENTS_MAX ? refusal(LW_TRACE_FULL, 0, EVENTS_MAX) : wanted;
}

/* Counts what a call answered, which has to be this. */
static void want(run *run, const char *what, uint32_t status, const lw_fault *fault, lw_fault wanted)
{
    if (status != wanted.status || fault->status != status || fault->item != wanted.item ||
        fault->value != wanted.value) {
        fail(run, what, status);
    }
    run->unsaid[status]++;
}

/* The same of a query, which has no fault. */
static void want_status(run *run, const char *what, uint32_t status, uint32_t wanted)
{
    lw_fault fault = refusal(status, 0, 0);

    want(run, what, status, &fault, refusal(wanted, 0, 0));
}

static void want_untouched(const run *run, const char *what, uint64_t number)
{
    if (number != UNTOUCHED) {
        fail(run, what, 0);
    }
}

/* One of three numbers. */
static uint64_t one_of(run *run, uint64_t first, uint64_t second, uint64_t third)
{
    const uint64_t NUMBERS[] = {first, second, third};

    return NUMBERS[draw(run, LENGTH_OF(NUMBERS))];
}

/* ---- Arrays of items ---- */

/* Directives with items. */
typedef enum directive { DATA, ENTERING, EXITING, UPDATING, DIRECTIVES } directive;

/* The clauses of each, as the header lists them. */
static const uint32_t CLAUSES[DIRECTIVES] = {
    [DATA] = 1u << LW_COPY | 1u << LW_COPYIN | 1u << LW_COPYOUT | 1u << LW_COPYOUT_ZERO | 1u << LW_CREATE |
             1u << LW_CREATE_ZERO | 1u << LW_NO_CREATE | 1u << LW_PRESENT | 1u << LW_ATTACH,
    [ENTERING] = 1u << LW_COPYIN | 1u << LW_CREATE | 1u << LW_CREATE_ZERO | 1u << LW_ATTACH,
    [EXITING] = 1u << LW_COPYOUT | 1u << LW_DELETE | 1u << LW_DETACH,
    [UPDATING] = 1u << LW_SELF | 1u << LW_DEVICE,
};

/* A number that is a clause of the directive, or one that is none. */
static uint32_t draw_clause(run *run, directive directive, bool is_right)
{
    for (;;) {
        uint32_t number = (uint32_t)draw(run, 16);

        if ((CLAUSES[directive] >> number & 1) == (is_right ? 1 : 0)) {
            return !is_right && is_drawn(run, 4) ? number | UINT32_MAX << 5 : number;
        }
    }
}

/* Random items under right clauses. */
static void fill(run *run, directive directive, lw_item *items, size_t count)
{
    for (size_t i = 0; i < count; i++) {
        section section = draw_section(run, WILD);

        items[i] = (lw_item){draw_clause(run, directive, true), section.start, section.len, draw(run, 2) * 8};
    }
}

/* Makes the directive, which was judged to answer the same. What it must not answer stays untouched. */
static uint32_t make(run *run, directive directive, const lw_item *items, size_t count, uint64_t queue,
                     lw_fault *fault)
{
    static const uint32_t KINDS[DIRECTIVES] = {LW_ENTERED, LW_ENTERED_DATA, LW_EXITED_DATA, LW_UPDATED};
    const uint32_t option = is_drawn(run, 2);
    uint64_t region = UNTOUCHED;
    uint32_t status;

    judge(run, (lw_stored_event){.kind = KINDS[directive], .option = option, .device = run->device, .queue = queue},
          items, count);
    switch (directive) {
    case DATA:
        status = lw_enter(&run->table, run->device, items, count, &region, fault);
        want_untouched(run, "a region that was not entered has a number", region);
        break;
    case ENTERING:
        status = lw_enter_data(&run->table, run->device, items, count, async_of(queue), fault);
        break;
    case EXITING:
        status = lw_exit_data(&run->table, run->device, items, count, option, async_of(queue), fault);
        break;
    default:
        status = lw_update(&run->table, run->device, items, count, option, async_of(queue), fault);
    }
    want_judged(run, fault);
    return status;
}

/* The first clause number that is none of the directive's is told before all else. */
static void wrong_clause(run *run)
{
    lw_item items[ITEMS_DRAWN];
    directive directive = (enum directive)draw(run, DIRECTIVES);
    size_t count = 1 + draw(run, ITEMS_DRAWN);
    size_t place = draw(run, count);
    lw_fault fault;
    uint32_t status;

    fill(run, directive, items, count);
    items[place].clause = draw_clause(run, directive, false);
    items[place + draw(run, count - place)].clause = draw_clause(run, directive, false);
    status = make(run, directive, items, count, one_of(run, 0, QUEUES, LW_NO_QUEUE_GIVEN), &fault);
    want(run, "a wrong clause", status, &fault, refusal(LW_BAD_CLAUSE, place, 0));
}

/* Far more items than a line has room for. */
static void too_many_items(run *run)
{
    static lw_item items[2000];
    directive directive = (enum directive)(ENTERING + draw(run, DIRECTIVES - ENTERING));
    size_t count = ITEMS_MAX + 1 + draw(run, LENGTH_OF(items) - ITEMS_MAX);
    lw_fault fault;
    uint32_t status;

    fill(run, directive, items, count);
    status = make(run, directive, items, count, LW_NO_QUEUE_GIVEN, &fault);
    want(run, "too many items", status, &fault, refusal(LW_TOO_MANY_ITEMS, 0, count));
}

/* A section at addresses, or of a length, that no script can write, behind some that are empty. */
static void far_section(run *run)
{
    lw_item items[4] = {{0}};
    directive directive = (enum directive)(ENTERING + draw(run, DIRECTIVES - ENTERING));
    size_t place = draw(run, LENGTH_OF(items));
    uint64_t start = one_of(run, UINT64_MAX - draw(run, 9), LW_HOST_BASE, 0);
    uint64_t len = start == LW_HOST_BASE ? one_of(run, UINT64_MAX, UINT64_MAX - LW_HOST_BASE, UINT64_C(1) << 63) : 9;
    lw_fault fault;
    uint32_t status;

    for (size_t i = 0; i < LENGTH_OF(items); i++) {
        items[i].clause = directive == ENTERING ? LW_CREATE : directive == EXITING ? LW_DELETE : LW_SELF;
    }
    items[place].start = start;
    items[place].len = len;
    status = make(run, directive, items, LENGTH_OF(items), LW_NO_QUEUE_GIVEN, &fault);
    want(run, "a section far away", status, &fault, unless_full(run, refusal(LW_OUT_OF_HOST, place, 0)));
}

/* A queue of a number that no script can write. */
static void far_queue(run *run)
{
    uint64_t queue = one_of(run, UINT64_MAX - 2, UINT64_C(1) << 32, UINT64_C(1) << 63);
    lw_fault wanted = unless_full(run, refusal(LW_NO_QUEUE, 0, queue));
    uint64_t made = UNTOUCHED;
    lw_fault fault;
    uint32_t status = make(run, (enum directive)(ENTERING + draw(run, DIRECTIVES - ENTERING)), NULL, 0, queue, &fault);

    want(run, "async in a queue far away", status, &fault, wanted);
    status = lw_wait(&run->table, run->device, queue, &made, &fault);
    want(run, "a wait for a queue far away", status, &fault, wanted);
    status = lw_step(&run->table, run->device, queue, &made, &fault);
    want(run, "a step of a queue far away", status, &fault, wanted);
    want_untouched(run, "a refused wait or step tells a number", made);
}

/* A directive on a device that is not there. */
static void far_device(run *run)
{
    const uint64_t device = run->device;
    const lw_fault wanted = unless_full(run, refusal(LW_NO_DEVICE, 0, one_of(run, run->devices, UINT64_MAX, 99)));
    lw_fault fault;
    directive directive = (enum directive)(ENTERING + draw(run, DIRECTIVES - ENTERING));
    uint32_t status;

    run->device = wanted.status == LW_NO_DEVICE ? wanted.value : run->devices;
    status = make(run, directive, NULL, 0, LW_NO_QUEUE_GIVEN, &fault);
    run->device = device;
    want(run, "a directive on no device", status, &fault, wanted);
}

/* A step of an empty queue is no event. */
static void empty_step(run *run)
{
    uint64_t made = UNTOUCHED;
    lw_fault fault;
    uint32_t status;

    for (uint64_t queue = 0; queue < QUEUES; queue++) {
        uint64_t len = 0;

        lw_queue_len(&run->table, run->device, queue, &len);
        if (len == 0) {
            lw_fault wanted = unless_full(run, refusal(LW_DONE, 0, 0));

            status = lw_step(&run->table, run->device, queue, &made, &fault);
            want(run, "a step of an empty queue", status, &fault, wanted);
            if (made != (status == LW_DONE ? 0 : UNTOUCHED)) {
                fail(run, "a step of an empty queue tells a number", status);
            }
            return;
        }
    }
}

/* ---- Regions, leases and handles ---- */

static void no_region(run *run)
{
    uint64_t region = one_of(run, 0, UINT64_MAX, run->left);
    lw_fault wanted = unless_full(run, refusal(LW_NO_REGION, 0, region));
    uint64_t lease = UNTOUCHED;
    lw_fault fault;
    uint32_t status = lw_exit(&run->table, region, &fault);

    want(run, "an exit from no region", status, &fault, wanted);
    status = lw_lend(&run->table, region, LW_HOST_BASE, 1, &lease, &fault);
    want(run, "a loan in no region", status, &fault, wanted);
    want_untouched(run, "a refused loan has a lease", lease);
}

/* A lease that is spent, or never was. */
static void no_lease(run *run)
{
    uint64_t lease = one_of(run, 0, UINT64_MAX, run->spent);
    lw_fault wanted = refusal(LW_NO_LEASE, 0, lease);
    uint8_t byte = 77;
    void *bytes = &byte;
    uint64_t len = 77;
    lw_fault fault;
    uint32_t status = lw_gather(&run->table, lease, &fault);

    want(run, "no lease is brought back", status, &fault, wanted);
    status = lw_lease_read(&run->table, lease, &byte, 1, &fault);
    want(run, "no lease is read", status, &fault, wanted);
    status = lw_lease_write(&run->table, lease, &byte, 1, &fault);
    want(run, "no lease is written", status, &fault, wanted);
    status = lw_lease_bytes(&run->table, lease, &bytes, &len, &fault);
    want(run, "no lease has bytes", status, &fault, wanted);
    if (byte != 77 || bytes != &byte || len != 77) {
        fail(run, "a refused read writes", status);
    }
}

static void ended_handle(run *run)
{
    lw_table ended = LW_NO_TABLE;
    lw_fault wanted = refusal(LW_ENDED, 0, 0);
    uint64_t number = UNTOUCHED;
    lw_fault fault;

    lw_table_end(&ended);
    want(run, "data without a table", lw_enter(&ended, 0, NULL, 0, &number, &fault), &fault, wanted);
    want(run, "update without a table", lw_update(&ended, 0, NULL, 0, true, lw_queue(99), &fault), &fault, wanted);
    want(run, "a lease without a table", lw_gather(&ended, run->spent, &fault), &fault, wanted);
    want(run, "a report without a table", lw_report(&ended, NULL, 0, &number, &fault), &fault, wanted);
    want_status(run, "events without a table", lw_events(&ended, &number), LW_ENDED);
    lw_table_end(&ended);
    want_untouched(run, "a handle without a table tells a number", number);
}

/* A table of wrong limits does not take the place of one that is there. */
static void wrong_limits(run *run)
{
    lw_limits limits = LW_LIMITS;
    lw_fault fault;

    limits.host = one_of(run, 24, 8, UINT64_MAX);
    want(run, "a table of wrong limits", lw_table_new(&run->table, &limits, &fault), &fault,
         refusal(LW_BAD_CONFIG, 0, 0));
}

/* ---- Buffers ---- */

static void far_bytes(run *run)
{
    uint8_t bytes[9];
    lw_fault fault;
    uint32_t status = lw_host_read(&run->table, UINT64_MAX - draw(run, 8), bytes, sizeof bytes, &fault);

    want(run, "a read past the last address", status, &fault, refusal(LW_OUT_OF_HOST, 0, 0));
    status = lw_device_read(&run->table, run->device, UINT64_MAX - draw(run, 8), bytes, sizeof bytes, &fault);
    want(run, "a read of the device past the last address", status, &fault, refusal(LW_ABSENT, 0, 0));
    status = lw_host_write(&run->table, UINT64_MAX - draw(run, 8), bytes, sizeof bytes, &fault);
    want(run, "a write past the last address", status, &fault, unless_full(run, refusal(LW_OUT_OF_HOST, 0, 0)));
}

/* No bytes of the host are there at each address, and no bytes of the device are absent at each. */
static void no_bytes(run *run)
{
    uint64_t start = one_of(run, 0, UINT64_MAX, run->arrays[0].start);
    lw_fault fault;
    uint32_t status = lw_host_read(&run->table, start, NULL, 0, &fault);

    want(run, "a read of no bytes", status, &fault, refusal(LW_DONE, 0, 0));
    status = lw_device_read(&run->table, run->device, start, NULL, 0, &fault);
    want(run, "a read of no bytes of the device", status, &fault, refusal(LW_ABSENT, 0, 0));
}

static void short_report(run *run)
{
    static char report[REPORT_MAX];
    size_t len = report_of(run, report);
    size_t size = draw(run, len + 1);
    uint64_t told = UNTOUCHED;
    lw_fault fault;
    uint32_t status;

    memset(report, '.', len);
    status = lw_report(&run->table, size == 0 ? NULL : report, size, &told, &fault);
    want(run, "a report into a buffer that is too short", status, &fault, refusal(LW_BAD_LENGTH, 0, len + 1));
    if (told != len) {
        fail(run, "a refused report has another length", status);
    }
    if (strspn(report, ".") != len) {
        fail(run, "a refused report writes into its buffer", status);
    }
}

/* ---- All of them ---- */

void make_unsaid(run *run)
{
    static void (*const CALLS[])(struct run *run) = {
        wrong_clause, too_many_items, far_section,  far_queue, far_device, empty_step,   no_region,
        no_lease,     ended_handle,   wrong_limits, far_bytes, no_bytes,   short_report,
    };
    static char before[REPORT_MAX];
    static char after[REPORT_MAX];

    report_of(run, before);
    CALLS[draw(run, LENGTH_OF(CALLS))](run);
    report_of(run, after);
    if (strcmp(before, after) != 0) {
        fail(run, "a call that is no event changes the report", 0);
    }
}

/* ---- A lent block ---- */

/* The counters of the range of what is lent. */
static lw_counters_of counters_of(run *run, const section *lent)
{
    lw_counters_of counters = {0, 0};

    if (lw_counters(&run->table, run->device, lent->start, lent->len, &counters) != LW_DONE) {
        fail(run, "what is lent is not mapped", 0);
    }
    return counters;
}

/* What needs the bytes of a lent block, or takes one of its counters down, is refused with the block's number. */
static void want_lent(run *run, const section *lent)
{
    lw_item item = {LW_SELF, lent->start, lent->len, 0};
    lw_counters_of counters = counters_of(run, lent);
    uint64_t lease = UNTOUCHED;
    lw_fault fault;
    lw_fault wanted;
    uint32_t status = lw_update(&run->table, run->device, &item, 1, is_drawn(run, 2), LW_ASYNC_SYNC, &fault);

    /* The number of the block is not known before; each of these calls tells the same. */
    wanted = unless_full(run, refusal(LW_LENT, 0, fault.value));
    want(run, "an update of a lent block", status, &fault, wanted);
    status = lw_lend(&run->table, run->regions[run->depth - 1], lent->start, lent->len, &lease, &fault);
    want(run, "a second loan of a block", status, &fault, wanted);
    want_untouched(run, "a refused loan has a lease", lease);
    if (counters.dynamic > 0) {
        item.clause = LW_DELETE;
        status = lw_exit_data(&run->table, run->device, &item, 1, is_drawn(run, 2), LW_ASYNC_SYNC, &fault);
        want(run, "exit data of a lent block", status, &fault, wanted);
    }
    if (counters.structured > 0 && run->depth == 1) { /* so this region holds it */
        status = lw_exit(&run->table, run->regions[0], &fault);
        want(run, "the exit from a region that holds a lent block", status, &fault, wanted);
    }
}

void make_unsaid_of_lent(run *run, const section *lent, uint64_t lease)
{
    static char before[REPORT_MAX];
    static char after[REPORT_MAX];
    static uint8_t bytes[BYTES_MAX];
    lw_fault wrong_length = refusal(LW_BAD_LENGTH, 0, lent->len);
    lw_fault fault;
    uint32_t status;

    report_of(run, before);
    want_lent(run, lent);
    status = lw_device_read(&run->table, run->device, lent->start, bytes, lent->len, &fault);
    want(run, "a read of a lent block", status, &fault, refusal(LW_ABSENT, 0, 0));
    status = lw_lease_read(&run->table, lease, bytes, lent->len + 1, &fault);
    want(run, "a lease is read into a buffer that is too long", status, &fault, wrong_length);
    status = lw_lease_write(&run->table, lease, bytes, lent->len - 1, &fault);
    want(run, "too few bytes are written to a lease", status, &fault, wrong_length);
    report_of(run, after);
    if (strcmp(before, after) != 0) {
        fail(run, "a refused call changes the report of a table with a loan", 0);
    }
}
