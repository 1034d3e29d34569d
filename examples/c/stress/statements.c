/* What a script can say: each statement, with the calls that do the same. */
#include "stress.h"
#include <inttypes.h>
#include <stdarg.h>
#include <string.h>

/* Stands in the place of a number that a refused call must not write. */
#define UNTOUCHED UINT64_C(0xEEEEEEEEEEEEEEEE)

#define LENGTH_OF(array) (sizeof(array) / sizeof *(array))

/* ---- The text of a line, and what accrun prints for it ---- */

/* Writes more of the line. */
__attribute__((format(printf, 2, 3))) static void say(run *run, const char *format, ...)
{
    va_list arguments;
    int len;

    va_start(arguments, format);
    len = vsnprintf(run->text + run->len, sizeof run->text - run->len, format, arguments);
    va_end(arguments);
    if (len < 0 || (size_t)len >= sizeof run->text - run->len) {
        fail(run, "a line is too long for a script", 0);
    }
    run->len += (size_t)len;
}

/* Ends the line, and puts it into the script. */
static void end_line(run *run)
{
    fprintf(run->script, "%.*s\n", (int)run->len, run->text);
    run->len = 0;
    run->line++;
}

/* Counts what a call answered, and tells a refusal as accrun prints it. */
static bool is_done(run *run, uint32_t status, const lw_fault *fault)
{
    char text[LW_FAULT_TEXT_SIZE];

    if (fault->status != status || status >= STATUSES) {
        fail(run, "the fault has another status", status);
    }
    want_judged(run, fault);
    run->said[status]++;
    if (status == LW_DONE) {
        if (fault->item != 0 || fault->value != 0) {
            fail(run, "a fault of a call that is done", status);
        }
        return true;
    }
    fprintf(run->wanted, "line %" PRIu64 ": refused %s\n", run->line, lw_fault_text(fault, text, sizeof text, NULL));
    return false;
}

/* The same of a call that answers a number where it is done. */
static bool is_answered(run *run, uint32_t status, const lw_fault *fault, uint64_t number)
{
    if ((number == UNTOUCHED) != (status != LW_DONE)) {
        fail(run, "a number is answered where it must not be, or none where it has to be", status);
    }
    return is_done(run, status, fault);
}

/* ---- Items ---- */

/* A clause: its number, what stands before its items, and how these are mostly chosen. */
typedef struct clause {
    uint32_t number;
    const char *opening;
    manner manner;
} clause;

static const clause OF_DATA[] = {
    {LW_COPY, "copy(", WHOLE},
    {LW_COPYIN, "copyin(", WHOLE},
    {LW_COPYIN, "copyin(readonly: ", WHOLE},
    {LW_COPYOUT, "copyout(", WHOLE},
    {LW_COPYOUT_ZERO, "copyout(zero: ", WHOLE},
    {LW_CREATE, "create(", WHOLE},
    {LW_CREATE_ZERO, "create(zero: ", WHOLE},
    {LW_NO_CREATE, "no_create(", WHOLE},
    {LW_PRESENT, "present(", MAPPED},
    {LW_ATTACH, "attach(", WHOLE},
};
static const clause OF_ENTER_DATA[] = {
    {LW_COPYIN, "copyin(", WHOLE},
    {LW_COPYIN, "copyin(readonly:", MAPPED},
    {LW_CREATE, "create(", WHOLE},
    {LW_CREATE_ZERO, "create(zero: ", WHOLE},
    {LW_ATTACH, "attach(", WHOLE},
};
static const clause OF_EXIT_DATA[] = {
    {LW_COPYOUT, "copyout(", MAPPED},
    {LW_DELETE, "delete(", MAPPED},
    {LW_DETACH, "detach(", WHOLE},
};
static const clause OF_UPDATE[] = {
    {LW_SELF, "self(", MAPPED},
    {LW_SELF, "host(", MAPPED},
    {LW_DEVICE, "device(", MAPPED},
};

/* How many items a directive has: mostly few, and sometimes about as many as it may have, or more. */
static size_t draw_count(run *run)
{
    if (is_drawn(run, 60)) {
        return ITEMS_MAX - 1 + draw(run, 4);
    }
    return 1 + draw(run, run->profile->items);
}

/* An item that names a pointer alone. Its length is not read. */
static lw_item say_pointer_alone(run *run, uint32_t clause, manner manner)
{
    place pointer = draw_pointer(run, manner);

    say(run, "%s", pointer.name);
    return (lw_item){.clause = clause, .start = pointer.address, .len = draw(run, 100)};
}

/* An item that names a section, and maybe the pointer to it. That of an update is not read, and no script has one. */
static lw_item say_section(run *run, uint32_t clause, manner manner)
{
    section section = draw_section(run, manner);
    lw_item item = {.clause = clause, .start = section.start, .len = section.len};
    bool is_update = clause == LW_SELF || clause == LW_DEVICE;

    say(run, "%s", section.name);
    if (is_drawn(run, 6)) {
        place pointer = draw_pointer(run, is_update ? WILD : manner);

        item.pointer = pointer.address;
        if (!is_update) {
            say(run, " via %s", pointer.name);
        }
    }
    return item;
}

/* Random items in random clauses, and how many they are. */
static size_t say_items(run *run, lw_item *items, const clause *clauses, size_t kinds)
{
    size_t count = draw_count(run);
    const clause *last = NULL;
    bool is_wild = draw_manner(run, WHOLE) == WILD;

    for (size_t i = 0; i < count; i++) {
        const clause *in = last != NULL && is_drawn(run, 2) ? last : &clauses[draw(run, kinds)];
        manner manner = is_wild ? WILD : in->manner;

        if (in == last) {
            say(run, ",");
        } else {
            say(run, "%s%s", last == NULL ? " " : is_drawn(run, 2) ? "), " : ") ", in->opening);
        }
        items[i] = in->number == LW_ATTACH || in->number == LW_DETACH ? say_pointer_alone(run, in->number, manner)
                                                                     : say_section(run, in->number, manner);
        last = in;
    }
    say(run, ")");
    return count;
}

/* ---- Options ---- */

/* The options of a directive. They stand before its clauses or behind them. */
typedef struct options {
    const char *word; /* finalize or if_present, where it has that */
    bool has_word;
    uint64_t queue;
    bool are_first;
} options;

/* The first queue is that of async without a number, too. */
lw_async async_of(uint64_t queue)
{
    return queue == LW_NO_QUEUE_GIVEN ? LW_ASYNC_SYNC : queue == 0 ? LW_ASYNC_NOVAL : lw_queue((int64_t)queue);
}

static uint64_t draw_queue(run *run)
{
    if (is_drawn(run, 60)) {
        return QUEUES + draw(run, 3);
    }
    return draw(run, is_drawn(run, 12) ? QUEUES : run->profile->queues);
}

static options draw_options(run *run, const char *word)
{
    bool has_word = word != NULL && is_drawn(run, 3);
    uint64_t queue = is_drawn(run, run->profile->async) ? draw_queue(run) : LW_NO_QUEUE_GIVEN;

    return (options){.word = word, .has_word = has_word, .queue = queue, .are_first = is_drawn(run, 2)};
}

static void say_options(run *run, const options *options, bool now)
{
    if (options->are_first != now) {
        return;
    }
    if (options->has_word) {
        say(run, " %s", options->word);
    }
    if (options->queue == 0 && is_drawn(run, 2)) {
        say(run, " async");
    } else if (options->queue != LW_NO_QUEUE_GIVEN) {
        say(run, " async(%" PRIu64 ")", options->queue);
    }
}

/* ---- Directives ---- */

/* Says a directive of these clauses, and answers how many items it has. */
static size_t say_directive(run *run, const char *name, lw_item *items, const clause *clauses, size_t kinds,
                            const options *options)
{
    size_t count;

    say(run, "%s", name);
    say_options(run, options, true);
    count = say_items(run, items, clauses, kinds);
    say_options(run, options, false);
    end_line(run);
    return count;
}

/* The event of a directive that may have a queue, and an option. */
static lw_stored_event event_of(const run *run, uint32_t kind, size_t count, const options *options)
{
    return (lw_stored_event){.kind = kind, .option = options->has_word, .device = run->device,
                             .queue = options->queue, .count = count};
}

/* Whether the directive of this line is made by lw_do, as its event names it, and not by its own call. */
static bool is_by_event(const run *run)
{
    return run->line % 2 == 0;
}

/* Makes one by its event that answers no number: lw_do answers 1. */
static uint32_t make_event(run *run, lw_stored_event asked, const lw_item *items, size_t count, lw_fault *fault)
{
    uint64_t number = UNTOUCHED;
    uint32_t status = lw_do(&run->table, &asked, items, count, &number, fault);

    if (number != (status == LW_DONE ? 1 : UNTOUCHED)) {
        fail(run, "a directive answers another number", status);
    }
    return status;
}

static void enter(run *run, const lw_item *items, size_t count)
{
    lw_stored_event entered = {.kind = LW_ENTERED, .device = run->device, .queue = LW_NO_QUEUE_GIVEN, .count = count};
    uint64_t region = UNTOUCHED;
    lw_fault fault;
    uint32_t status;

    judge(run, entered, items, count);
    status = is_by_event(run) ? lw_do(&run->table, &entered, items, count, &region, &fault)
                              : lw_enter(&run->table, run->device, items, count, &region, &fault);
    if (is_answered(run, status, &fault, region)) {
        entered.region = region;
        want_event(run, entered, items, NULL);
        want_held(run, region, items, count);
        run->entered[run->depth] = count;
        run->on[run->depth] = run->device;
        run->regions[run->depth++] = region;
    }
}

static void say_data(run *run)
{
    static const options NONE = {.queue = LW_NO_QUEUE_GIVEN};
    lw_item items[ITEMS_DRAWN];

    enter(run, items, say_directive(run, "data", items, OF_DATA, LENGTH_OF(OF_DATA), &NONE));
}

void say_end_data(run *run)
{
    const size_t last = run->depth - 1;
    const lw_stored_event left = {.kind = LW_EXITED, .device = run->on[last], .queue = LW_NO_QUEUE_GIVEN,
                                  .region = run->regions[last], .count = run->entered[last]};
    lw_fault fault;
    uint32_t status;

    say(run, "end data");
    end_line(run);
    judge(run, left, NULL, 0);
    status = is_by_event(run) ? make_event(run, left, NULL, 0, &fault) : lw_exit(&run->table, left.region, &fault);
    if (is_done(run, status, &fault)) {
        run->left = left.region;
        run->depth--;
        want_event(run, left, NULL, NULL);
        want_held(run, left.region, NULL, 0);
    }
}

static void say_enter_data(run *run)
{
    lw_item items[ITEMS_DRAWN];
    options options = draw_options(run, NULL);
    size_t count = say_directive(run, "enter data", items, OF_ENTER_DATA, LENGTH_OF(OF_ENTER_DATA), &options);
    lw_stored_event entered = event_of(run, LW_ENTERED_DATA, count, &options);
    lw_fault fault;
    uint32_t status;

    judge(run, entered, items, count);
    status = is_by_event(run)
                 ? make_event(run, entered, items, count, &fault)
                 : lw_enter_data(&run->table, run->device, items, count, async_of(options.queue), &fault);
    if (is_done(run, status, &fault)) {
        want_event(run, entered, items, NULL);
    }
}

static void say_exit_data(run *run)
{
    lw_item items[ITEMS_DRAWN];
    options options = draw_options(run, "finalize");
    size_t count = say_directive(run, "exit data", items, OF_EXIT_DATA, LENGTH_OF(OF_EXIT_DATA), &options);
    lw_stored_event exited = event_of(run, LW_EXITED_DATA, count, &options);
    lw_fault fault;
    uint32_t status;

    judge(run, exited, items, count);
    status = is_by_event(run) ? make_event(run, exited, items, count, &fault)
                              : lw_exit_data(&run->table, run->device, items, count, options.has_word,
                                             async_of(options.queue), &fault);
    if (is_done(run, status, &fault)) {
        want_event(run, exited, items, NULL);
    }
}

static void say_update(run *run)
{
    lw_item items[ITEMS_DRAWN];
    options options = draw_options(run, "if_present");
    size_t count = say_directive(run, "update", items, OF_UPDATE, LENGTH_OF(OF_UPDATE), &options);
    lw_stored_event updated = event_of(run, LW_UPDATED, count, &options);
    lw_fault fault;
    uint32_t status;

    judge(run, updated, items, count);
    status = is_by_event(run) ? make_event(run, updated, items, count, &fault)
                              : lw_update(&run->table, run->device, items, count, options.has_word,
                                          async_of(options.queue), &fault);
    if (is_done(run, status, &fault)) {
        want_event(run, updated, items, NULL);
    }
}

/* A directive without items. No script can say that, so the script has one with an empty section, which does as little:
   it is one event. */
static void say_nothing(run *run)
{
    static const options NONE = {.queue = LW_NO_QUEUE_GIVEN};
    lw_fault fault;

    switch (draw(run, 4)) {
    case 0:
        say(run, "data create(a[0:0])");
        end_line(run);
        enter(run, NULL, 0);
        break;
    case 1:
        say(run, "enter data create(a[0:0])");
        end_line(run);
        judge(run, event_of(run, LW_ENTERED_DATA, 0, &NONE), NULL, 0);
        is_done(run, lw_enter_data(&run->table, run->device, NULL, 0, LW_ASYNC_SYNC, &fault), &fault);
        break;
    case 2:
        say(run, "update self(a[0:0])");
        end_line(run);
        judge(run, event_of(run, LW_UPDATED, 0, &NONE), NULL, 0);
        is_done(run, lw_update(&run->table, run->device, NULL, 0, false, LW_ASYNC_SYNC, &fault), &fault);
        break;
    default: /* a write of no bytes */
        say(run, "exit data delete(a[0:0])");
        end_line(run);
        is_done(run, lw_host_write(&run->table, draw(run, 2) * UINT64_MAX, NULL, 0, &fault), &fault);
    }
}

static void say_wait(run *run)
{
    uint64_t queue = is_drawn(run, 4) ? LW_NO_QUEUE_GIVEN : draw_queue(run);
    lw_stored_event waited = {.kind = LW_WAITED, .device = run->device, .queue = queue};
    uint64_t made = UNTOUCHED;
    lw_fault fault;
    uint32_t status;

    say(run, "wait");
    if (queue != LW_NO_QUEUE_GIVEN) {
        say(run, "(%" PRIu64 ")", queue);
    }
    end_line(run);
    judge(run, waited, NULL, 0);
    status = is_by_event(run) ? lw_do(&run->table, &waited, NULL, 0, &made, &fault)
                              : lw_wait(&run->table, run->device, queue, &made, &fault);
    if (is_answered(run, status, &fault, made)) {
        waited.count = made;
        want_event(run, waited, NULL, NULL);
    }
}

static void say_step(run *run)
{
    uint64_t queue = draw_queue(run);
    const lw_stored_event stepped = {.kind = LW_STEPPED, .device = run->device, .queue = queue};
    uint64_t made = UNTOUCHED;
    lw_waiting_copy copy;
    lw_item_did did;
    bool waits;
    lw_fault fault;
    uint32_t status;

    say(run, "step(%" PRIu64 ")", queue);
    end_line(run);
    judge(run, stepped, NULL, 0);
    waits = lw_transfer(&run->table, run->device, queue, 0, &copy) == LW_DONE;
    status = is_by_event(run) ? lw_do(&run->table, &stepped, NULL, 0, &made, &fault)
                              : lw_step(&run->table, run->device, queue, &made, &fault);
    if (!is_answered(run, status, &fault, made)) {
        return;
    }
    if (made != waits) {
        fail(run, "a step makes a copy that does not wait, or none that does", 0);
    }
    if (made == 0) {
        fprintf(run->wanted, "idle\n");
        return;
    }
    want_event(run, stepped, NULL, NULL);
    if (lw_did(&run->table, 0, &did) != LW_DONE || did.block != copy.block) {
        fail(run, "a step makes another copy than the first one that waits", 0);
    }
}

/* ---- Bytes ---- */

/* The host writes, which leaves its event with the bytes. */
static void write_host(run *run, uint64_t start, const uint8_t *bytes, size_t len)
{
    lw_fault fault;

    if (is_done(run, lw_host_write(&run->table, start, bytes, len, &fault), &fault)) {
        want_event(run, (lw_stored_event){.kind = LW_WRITTEN, .queue = LW_NO_QUEUE_GIVEN, .start = start, .len = len,
                                          .stored = len}, NULL, bytes);
    }
}

static void say_write(run *run)
{
    place at = is_drawn(run, 3 * run->profile->wild) ? draw_pointer(run, WILD) : draw_byte(run);
    uint8_t bytes[64];
    size_t len = 1 + draw(run, is_drawn(run, 20) ? sizeof bytes : 16);

    say(run, "write %s ", at.name);
    for (size_t i = 0; i < len; i++) {
        bytes[i] = (uint8_t)draw(run, 256);
        say(run, is_drawn(run, 2) ? "%02x" : "%02X", bytes[i]);
    }
    end_line(run);
    write_host(run, at.address, bytes, len);
}

/* The host makes a pointer: the address as eight bytes, the lowest one first. */
static void say_point(run *run)
{
    place at = draw_pointer(run, draw_manner(run, WHOLE));
    place to = draw_byte(run);
    uint8_t bytes[8];

    say(run, "point %s to %s", at.name, to.name);
    end_line(run);
    for (size_t i = 0; i < sizeof bytes; i++) {
        bytes[i] = (uint8_t)(to.address >> (8 * i));
    }
    write_host(run, at.address, bytes, sizeof bytes);
}

static void want_bytes(run *run, const uint8_t *bytes, size_t len)
{
    for (size_t i = 0; i < len; i++) {
        fprintf(run->wanted, "%02x", bytes[i]);
    }
    fprintf(run->wanted, "%s\n", len == 0 ? "-" : "");
}

static void say_show(run *run)
{
    static uint8_t bytes[BYTES_MAX];
    section section = draw_readable(run);
    lw_fault fault;

    say(run, "show %s", section.name);
    end_line(run);
    if (is_done(run, lw_host_read(&run->table, section.start, bytes, section.len, &fault), &fault)) {
        want_bytes(run, bytes, section.len);
    }
}

/* Counts what a query answered: it finds something, or it is LW_ABSENT. */
static bool is_found(run *run, uint32_t status)
{
    if (status != LW_DONE && status != LW_ABSENT) {
        fail(run, "a query is refused", status);
    }
    run->said[status]++;
    return status == LW_DONE;
}

static void say_peek(run *run)
{
    static uint8_t bytes[BYTES_MAX];
    section section = draw_readable(run);
    lw_fault fault;

    say(run, "peek %s", section.name);
    end_line(run);
    if (is_found(run, lw_device_read(&run->table, run->device, section.start, bytes, section.len, &fault))) {
        want_bytes(run, bytes, section.len);
    } else {
        fprintf(run->wanted, "none\n");
    }
}

static void say_present(run *run)
{
    section section = draw_section(run, draw_manner(run, is_drawn(run, 2) ? WHOLE : MAPPED));
    uint64_t present = UNTOUCHED;

    say(run, "present %s", section.name);
    end_line(run);
    is_found(run, lw_is_present(&run->table, run->device, section.start, section.len, &present));
    fprintf(run->wanted, "%s\n", present == 1 ? "yes" : "no");
}

static void say_address(run *run)
{
    place byte = is_drawn(run, 2) ? draw_pointer(run, draw_manner(run, WHOLE)) : draw_byte(run);
    uint64_t place = UNTOUCHED;

    say(run, "address %s", byte.name);
    end_line(run);
    if (is_found(run, lw_device_address(&run->table, run->device, byte.address, &place))) {
        fprintf(run->wanted, "0x%" PRIx64 "\n", place);
    } else if (place == UNTOUCHED) {
        fprintf(run->wanted, "none\n");
    }
}

static void say_question(run *run)
{
    static void (*const QUESTIONS[])(struct run *run) = {say_show, say_peek, say_present, say_address};

    QUESTIONS[draw(run, LENGTH_OF(QUESTIONS))](run);
}

void say_report(run *run)
{
    static char report[REPORT_MAX];
    size_t len = report_of(run, report);

    say(run, "report");
    end_line(run);
    fwrite(report, 1, len, run->wanted);
    check_report(run, report, len);
}

/* ---- Kernels ---- */

/* The four kernels of scripts: each changes a byte by its place, by a number, or by a byte of a source. */
typedef enum work { ADD, XOR, NUMBER, PLUS, WORKS } work;

static const char *const NAMES[] = {"add", "xor", "number", "plus"};

typedef struct task {
    work work;
    uint8_t number;
    section source;
    uint8_t bytes[BYTES_MAX]; /* those of the source */
} task;

static uint8_t changed(const task *task, uint8_t byte, size_t place)
{
    switch (task->work) {
    case ADD:
        return (uint8_t)(byte + task->number);
    case XOR:
        return byte ^ task->number;
    case NUMBER:
        return (uint8_t)(task->number + place);
    default:
        return place < task->source.len ? (uint8_t)(byte + task->bytes[place]) : byte;
    }
}

/* The kernel changes the bytes where they lie, and they come to stand in the buffer. */
static void change_there(run *run, const task *task, uint64_t lease, uint8_t *buffer, uint64_t len)
{
    void *bytes = NULL;
    uint64_t told = 0;
    uint32_t status = lw_lease_bytes(&run->table, lease, &bytes, &told, NULL);

    if (status != LW_DONE || told != len) {
        fail(run, "the bytes of a lease lie nowhere", status);
    }
    for (uint64_t i = 0; i < len; i++) {
        buffer[i] = ((uint8_t *)bytes)[i] = changed(task, ((const uint8_t *)bytes)[i], i);
    }
}

/* The kernel changes them in a buffer, into which they are copied, and from which they are copied back. */
static void change_copy(run *run, const task *task, uint64_t lease, uint8_t *buffer, uint64_t len)
{
    uint32_t status = lw_lease_read(&run->table, lease, buffer, len, NULL);

    if (status != LW_DONE) {
        fail(run, "the bytes of a lease cannot be read", status);
    }
    for (uint64_t i = 0; i < len; i++) {
        buffer[i] = changed(task, buffer[i], i);
    }
    status = lw_lease_write(&run->table, lease, buffer, len, NULL);
    if (status != LW_DONE) {
        fail(run, "the bytes of a lease cannot be written", status);
    }
}

/* What the kernel does with its lease: the bytes are changed, and brought back. */
static void work_on(run *run, const task *task, const section *lent, uint64_t lease)
{
    static uint8_t bytes[BYTES_MAX];
    lw_lent_lease told;
    lw_fault fault;

    want_event(run, (lw_stored_event){.kind = LW_LENT_BLOCK, .device = run->device, .queue = LW_NO_QUEUE_GIVEN,
                                      .region = run->regions[run->depth - 1], .lease = lease, .start = lent->start,
                                      .len = lent->len}, NULL, NULL);
    if (lw_lease(&run->table, 0, &told) != LW_DONE || told.lease != lease || told.device != run->device ||
        told.len != lent->len || lw_lease(&run->table, lease + 1, &told) != LW_ABSENT) {
        fail(run, "another lease is out", 0);
    }
    (is_drawn(run, 2) ? change_there : change_copy)(run, task, lease, bytes, lent->len);
    make_unsaid_of_lent(run, lent, lease);
    if (is_done(run, lw_gather(&run->table, lease, &fault), &fault)) {
        run->spent = lease;
        want_event(run, (lw_stored_event){.kind = LW_GATHERED, .device = run->device, .queue = LW_NO_QUEUE_GIVEN,
                                          .lease = lease, .stored = lent->len}, NULL, bytes);
    }
}

/* A kernel in the innermost region, on its device. The script tells a source that is not in host memory as its item
   1. */
static void say_kernel_there(run *run)
{
    static task task;
    uint64_t lease = UNTOUCHED;
    section section;
    lw_fault fault;
    uint32_t status;

    task.work = (work)draw(run, WORKS);
    task.number = (uint8_t)draw(run, 256);
    say(run, "kernel %s ", NAMES[task.work]);
    if (task.work == PLUS) {
        task.source = draw_readable(run);
        say(run, "%s ", task.source.name);
    } else {
        say(run, "%u ", (unsigned)task.number);
    }
    section = draw_section(run, draw_manner(run, MAPPED));
    say(run, "%s", section.name);
    end_line(run);
    if (task.work == PLUS) {
        status = lw_host_read(&run->table, task.source.start, task.bytes, task.source.len, &fault);
        if (status != LW_DONE) {
            fault.item = 1;
            is_done(run, status, &fault);
            return;
        }
    }
    status = lw_lend(&run->table, run->regions[run->depth - 1], section.start, section.len, &lease, &fault);
    if (is_answered(run, status, &fault, lease)) {
        work_on(run, &task, &section, lease);
    }
}

static void say_kernel(run *run)
{
    const uint64_t device = run->device;

    run->device = run->on[run->depth - 1];
    say_kernel_there(run);
    run->device = device;
}

/* Later lines are for another device. Where there is none of the number, the table refuses each call there. */
static void say_turn(run *run)
{
    const uint64_t device = draw(run, run->devices + is_drawn(run, 8));
    const lw_fault fault = {.status = LW_NO_DEVICE, .value = device};

    say(run, "set device_num(%" PRIu64 ")", device);
    end_line(run);
    if (device >= run->devices) {
        is_done(run, LW_NO_DEVICE, &fault);
        return;
    }
    run->device = device;
}

/* ---- All of them ---- */

void say_arrays(run *run)
{
    for (uint32_t i = 0; i < run->profile->arrays; i++) {
        say(run, "array %c %" PRIu64, (char)('a' + i), run->arrays[i].len);
        end_line(run);
    }
}

void say_statement(run *run, kind kind)
{
    static void (*const STATEMENTS[])(struct run *run) = {
        [ENTER] = say_data,     [LEAVE] = say_end_data, [ENTER_DATA] = say_enter_data, [EXIT_DATA] = say_exit_data,
        [UPDATE] = say_update,  [WAIT] = say_wait,      [STEP] = say_step,             [WRITE] = say_write,
        [POINT] = say_point,    [KERNEL] = say_kernel,  [ASK] = say_question,          [NOTHING] = say_nothing,
        [UNSAID] = make_unsaid, [TURN] = say_turn,
    };

    STATEMENTS[kind](run);
}
