/*
 * What stands between a program in C and the proved calls: a fault that may be NULL, limits that may be those of
 * another header, names and texts that end with a zero, and a loop over events. It is not proved. Of a table it decides
 * nothing but where that loop stops.
 */
#include "proved.h"
#include <stdio.h>
#include <string.h>

/* ---- Faults ---- */

/* Where a call tells its fault: beside what it was given where that is NULL. */
#define PLACE(fault) ((fault) != NULL ? (fault) : &(lw_fault){0})

const char *lw_status_name(uint32_t status)
{
    static const char *const names[] = {
        [LW_DONE] = "Done",
        [LW_MEMORY] = "Memory",
        [LW_BAD_CONFIG] = "BadConfig",
        [LW_NO_TICKETS] = "NoTickets",
        [LW_NO_ALLOWANCE] = "NoAllowance",
        [LW_TOO_MANY_ITEMS] = "TooManyItems",
        [LW_TRACE_FULL] = "TraceFull",
        [LW_OUT_OF_HOST] = "OutOfHost",
        [LW_MISALIGNED] = "Misaligned",
        [LW_NO_QUEUE] = "NoQueue",
        [LW_PARTLY_PRESENT] = "PartlyPresent",
        [LW_NOT_PRESENT] = "NotPresent",
        [LW_COUNTER_FULL] = "CounterFull",
        [LW_LENT] = "Lent",
        [LW_DEVICE_FULL] = "DeviceFull",
        [LW_QUEUE_FULL] = "QueueFull",
        [LW_NO_REGION] = "NoRegion",
        [LW_NO_LEASE] = "NoLease",
        [LW_SCRIPT] = "Script",
        [LW_NO_DEVICE] = "NoDevice",
        [LW_ENDED] = "Ended",
        [LW_BAD_CLAUSE] = "BadClause",
        [LW_BAD_LENGTH] = "BadLength",
        [LW_ABSENT] = "Absent",
        [LW_BAD_VERSION] = "BadVersion",
    };
    const char *name = status < sizeof names / sizeof *names ? names[status] : NULL;

    return name != NULL ? name : "";
}

/* ---- Texts ---- */

const char *lw_fault_text(const lw_fault *told, char *buffer, size_t size, uint64_t *len)
{
    char text[LW_FAULT_TEXT_SIZE];
    uint64_t wanted = 0;

    if (lamwiest_fault_text(told, (uint8_t *)text, sizeof text - 1, &wanted, PLACE(NULL)) != LW_DONE) {
        wanted = strlen(strcpy(text, lw_status_name(told->status)));
    }
    text[wanted] = '\0';
    if (len != NULL) {
        *len = wanted;
    }
    if (size != 0) {
        snprintf(buffer, size, "%s", text);
    }
    return buffer;
}

/* Tells the outcome of a call that was given one byte less than a buffer has, for the zero at the end of its text. */
static uint32_t end_text(lw_fault told, uint64_t wanted, char *buffer, size_t size, uint64_t *len, lw_fault *fault)
{
    int is_put = told.status == LW_DONE || told.status == LW_SCRIPT;

    if (is_put && size == 0) {
        told = (lw_fault){.status = LW_BAD_LENGTH};
    }
    if (told.status == LW_BAD_LENGTH) {
        wanted = told.value++;
    } else if (is_put) {
        buffer[wanted] = '\0';
    }
    if (len != NULL && (is_put || told.status == LW_BAD_LENGTH)) {
        *len = wanted;
    }
    *PLACE(fault) = told;
    return told.status;
}

uint32_t lw_report(lw_table *table, char *buffer, size_t size, uint64_t *len, lw_fault *fault)
{
    lw_fault told;
    uint64_t wanted = 0;

    lamwiest_report(table, (uint8_t *)buffer, size != 0 ? size - 1 : 0, &wanted, &told);
    return end_text(told, wanted, buffer, size, len, fault);
}

/* ---- Tables ---- */

/* How many bytes the limits had in the first version of these two numbers. */
enum { FIRST_SIZE = offsetof(lw_limits, devices) + sizeof(uint64_t) };

/* A program that was compiled with the header of 0.1.0 calls it. The limits that it writes are of no version. */
void lw_limits_default(void *limits);
void lw_limits_default(void *limits)
{
    memset(limits, 0, offsetof(lw_limits, host));
}

/* Whether the library knows limits of this version, whose first two numbers are its own, and of this size. */
static int is_known(const lw_limits *limits)
{
    return limits->version / 1000 == LW_VERSION / 1000 && limits->size >= FIRST_SIZE && limits->size <= sizeof *limits;
}

static uint32_t begin(lw_table *table, const limit_fields *fields, lw_fault *fault)
{
    uint32_t status = lamwiest_table_new(table, fields, PLACE(fault));

    if (status == LW_DONE) {
        table->arrays = 0;
    }
    return status;
}

/* Reads limits; those that a program does not have yet are 0. */
static uint32_t read_limits(const lw_limits *limits, limit_fields *fields, lw_fault *fault)
{
    const size_t first = offsetof(lw_limits, host);

    if (limits != NULL) {
        if (!is_known(limits)) {
            *PLACE(fault) = (lw_fault){.status = LW_BAD_VERSION, .value = LW_VERSION};
            return LW_BAD_VERSION;
        }
        memcpy(fields, (const char *)limits + first, limits->size - first);
    }
    return LW_DONE;
}

uint32_t lw_table_new(lw_table *table, const lw_limits *limits, lw_fault *fault)
{
    limit_fields fields = {0};
    uint32_t status = read_limits(limits, &fields, fault);

    return status == LW_DONE ? begin(table, &fields, fault) : status;
}

uint32_t lw_table_reset(lw_table *table, lw_fault *fault)
{
    limit_fields fields = {0};
    uint32_t status = lamwiest_limits_of(table, &fields);

    if (status != LW_DONE) {
        *PLACE(fault) = (lw_fault){.status = status};
        return status;
    }
    return begin(table, &fields, fault);
}

uint32_t lw_table_copy(lw_table *from, lw_table *to, lw_fault *fault)
{
    uint32_t status = lamwiest_table_copy(from, to, PLACE(fault));

    if (status == LW_DONE) {
        to->arrays = from->arrays;
    }
    return status;
}

uint32_t lw_table_same(lw_table *one, lw_table *other, uint64_t *same, lw_fault *fault)
{
    return lamwiest_table_same(one, other, same, PLACE(fault));
}

uint32_t lw_limits_of(lw_table *table, lw_limits *limits)
{
    const size_t first = offsetof(lw_limits, host);
    limit_fields fields = {0};
    uint32_t status;

    if (!is_known(limits)) {
        return LW_BAD_VERSION;
    }
    status = lamwiest_limits_of(table, &fields);
    if (status == LW_DONE) {
        memcpy((char *)limits + first, &fields, limits->size - first);
    }
    return status;
}

uint32_t lw_rebase(lw_table *table, uint64_t *folded, lw_fault *fault)
{
    return lamwiest_rebase(table, folded, PLACE(fault));
}

uint32_t lw_array(lw_table *table, uint64_t len, uint64_t *start, lw_fault *fault)
{
    uint32_t status = lamwiest_array(table, table->arrays, len, start, PLACE(fault));

    if (status == LW_DONE) {
        table->arrays = *start - LW_HOST_BASE + len;
    }
    return status;
}

/* ---- Scripts ---- */

uint32_t lw_script(const lw_limits *limits, const char *script, size_t length, char *buffer, size_t size,
                   uint64_t *len, lw_fault *fault)
{
    limit_fields fields = {0};
    lw_fault told;
    uint64_t wanted = 0;
    uint32_t status = read_limits(limits, &fields, fault);

    if (status != LW_DONE) {
        return status;
    }
    lamwiest_script(&fields, (const uint8_t *)script, length, (uint8_t *)buffer, size != 0 ? size - 1 : 0, &wanted,
                    &told);
    return end_text(told, wanted, buffer, size, len, fault);
}

/* ---- Directives ---- */

uint32_t lw_enter(lw_table *table, uint64_t device, const lw_item *items, size_t count, uint64_t *region,
                  lw_fault *fault)
{
    return lamwiest_enter(table, device, items, count, region, PLACE(fault));
}

uint32_t lw_exit(lw_table *table, uint64_t region, lw_fault *fault)
{
    return lamwiest_exit(table, region, PLACE(fault));
}

uint32_t lw_enter_data(lw_table *table, uint64_t device, const lw_item *items, size_t count, lw_async async,
                       lw_fault *fault)
{
    return lamwiest_enter_data(table, device, items, count, (uint64_t)async.number, PLACE(fault));
}

uint32_t lw_exit_data(lw_table *table, uint64_t device, const lw_item *items, size_t count, uint32_t finalize,
                      lw_async async, lw_fault *fault)
{
    return lamwiest_exit_data(table, device, items, count, finalize, (uint64_t)async.number, PLACE(fault));
}

uint32_t lw_update(lw_table *table, uint64_t device, const lw_item *items, size_t count, uint32_t if_present,
                   lw_async async, lw_fault *fault)
{
    return lamwiest_update(table, device, items, count, if_present, (uint64_t)async.number, PLACE(fault));
}

uint32_t lw_wait(lw_table *table, uint64_t device, uint64_t queue, uint64_t *made, lw_fault *fault)
{
    return lamwiest_wait(table, device, queue, made, PLACE(fault));
}

uint32_t lw_step(lw_table *table, uint64_t device, uint64_t queue, uint64_t *made, lw_fault *fault)
{
    return lamwiest_step(table, device, queue, made, PLACE(fault));
}

/* ---- Directives and writes by their events ---- */

uint32_t lw_judge(lw_table *table, const lw_stored_event *asked, const lw_item *items, size_t count, lw_fault *fault)
{
    return lamwiest_judge(table, asked, items, count, PLACE(fault));
}

uint32_t lw_do(lw_table *table, const lw_stored_event *asked, const lw_item *items, size_t count, uint64_t *number,
               lw_fault *fault)
{
    return lamwiest_do(table, asked, items, count, number, PLACE(fault));
}

/* How many items the array has for an event. The count of an exit is its entry's, and that of a wait counts copies. */
static size_t items_for(const lw_stored_event *asked)
{
    switch (asked->kind) {
    case LW_ENTERED:
    case LW_ENTERED_DATA:
    case LW_EXITED_DATA:
    case LW_UPDATED:
        return asked->count;
    default:
        return 0;
    }
}

/* A handle without a table is refused with no event too. An array that is NULL is not moved on, not even by 0. */
uint32_t lw_run(lw_table *table, const lw_stored_event *asked, size_t count, const lw_item *items, const void *bytes,
                uint64_t *done, lw_fault *fault)
{
    lw_fault *told = PLACE(fault);
    const uint8_t *written = bytes;
    uint64_t events;

    *told = (lw_fault){.status = lw_events(table, &events)};
    for (*done = 0; *done < count; ++*done, asked++) {
        const size_t named = items_for(asked);
        const size_t len = asked->kind == LW_WRITTEN ? asked->len : 0;
        uint64_t number = 0;

        if (asked->kind == LW_WRITTEN) {
            lamwiest_host_write(table, asked->start, written, len, told);
        } else {
            lamwiest_do(table, asked, items, named, &number, told);
        }
        if (told->status != LW_DONE) {
            break;
        }
        items = named != 0 ? items + named : items;
        written = len != 0 ? written + len : written;
    }
    return told->status;
}

/* ---- Bytes ---- */

uint32_t lw_host_write(lw_table *table, uint64_t start, const void *bytes, size_t len, lw_fault *fault)
{
    return lamwiest_host_write(table, start, bytes, len, PLACE(fault));
}

uint32_t lw_host_read(lw_table *table, uint64_t start, void *bytes, size_t len, lw_fault *fault)
{
    return lamwiest_host_read(table, start, bytes, len, PLACE(fault));
}

uint32_t lw_device_read(lw_table *table, uint64_t device, uint64_t start, void *bytes, size_t len, lw_fault *fault)
{
    return lamwiest_device_read(table, device, start, bytes, len, PLACE(fault));
}

/* ---- Leases ---- */

uint32_t lw_lend(lw_table *table, uint64_t region, uint64_t start, uint64_t len, uint64_t *lease, lw_fault *fault)
{
    return lamwiest_lend(table, region, start, len, lease, PLACE(fault));
}

uint32_t lw_lease_read(lw_table *table, uint64_t lease, void *bytes, size_t len, lw_fault *fault)
{
    return lamwiest_lease_read(table, lease, bytes, len, PLACE(fault));
}

uint32_t lw_lease_write(lw_table *table, uint64_t lease, const void *bytes, size_t len, lw_fault *fault)
{
    return lamwiest_lease_write(table, lease, bytes, len, PLACE(fault));
}

uint32_t lw_lease_bytes(lw_table *table, uint64_t lease, void **bytes, uint64_t *len, lw_fault *fault)
{
    lease_place place = {0};
    uint32_t status = lamwiest_lease_place(table, lease, &place, PLACE(fault));

    if (status == LW_DONE) {
        *bytes = place.block + place.offset;
        *len = place.len;
    }
    return status;
}

uint32_t lw_gather(lw_table *table, uint64_t lease, lw_fault *fault)
{
    return lamwiest_gather(table, lease, PLACE(fault));
}

/* ---- The stored trace ---- */

uint32_t lw_event_bytes(lw_table *table, uint64_t place, void *bytes, size_t len, lw_fault *fault)
{
    return lamwiest_event_bytes(table, place, bytes, len, PLACE(fault));
}
