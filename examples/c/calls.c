/*
 * Each call of the library, right and wrong, with what it has to answer. A row is one call; the rows of a scene are
 * made in their order on one table. A refused call has to leave the report of the table as it was. Before a call is
 * made for good it is made with each of its growths of memory refused: then it is LW_MEMORY, or what it is
 * refused for in any case. While no lease is out each row is made on a copy of its table, too.
 */
#include "lamwiest.h"
#include "refusing.h"
#include <inttypes.h>
#include <stdio.h>
#include <stdlib.h>
#include <string.h>

/* Stands in a place that no call has written. */
#define UNTOUCHED UINT64_C(0xEEEEEEEEEEEEEEEE)

/* What a row has to answer. */
#define DONE .status = LW_DONE, .number = UNTOUCHED
#define ANSWERS(told) .status = LW_DONE, .number = (told)
#define REFUSED(why, which, other) .status = (why), .item = (which), .value = (other), .number = UNTOUCHED
#define SHORT(size) .status = LW_BAD_LENGTH, .value = (size), .number = (size) - 1

/* Three arrays in host memory, of 16 bytes each, and the end of it. */
#define HOST_SIZE UINT64_C(4096)
#define A LW_HOST_BASE
#define B (LW_HOST_BASE + 16)
#define C (LW_HOST_BASE + 32)
#define END (LW_HOST_BASE + HOST_SIZE)

/* Two arrays behind these, in a larger memory: one of many bytes, and one whose length is no multiple of 16. */
#define LARGE (LW_HOST_BASE + 4096)
#define LARGE_SIZE UINT64_C(8192)
#define ODD (LW_HOST_BASE + 16384)
#define ODD_SIZE UINT64_C(24)

#define NO_QUEUE LW_NO_QUEUE_GIVEN
#define SYNC (-2)
#define NOVAL (-1)

/* What an item did: its step, what was done to its pointer, their blocks, and a device address or 0. */
#define DID(step, aim, block, holder, address) \
    ((address) << 24 | (uint64_t)(holder) << 16 | (uint64_t)(block) << 8 | (aim) << 4 | (step))

enum { LISTED = 2, ITEMS = 65, TEXT = 4096 };

/* One call: its arguments, and what it has to answer. Bytes are those of a number, the highest first, and zeros behind
   them. */
typedef struct row {
    const char *says;
    uint32_t (*make)(lw_table *table, const struct row *row, uint64_t *number, lw_fault *fault);
    lw_item items[LISTED]; /* a longer list repeats the first one */
    size_t count;
    uint64_t at; /* a host address, a queue, or the number of a region or of a lease */
    uint64_t device;
    int64_t async;
    uint64_t region;
    uint64_t len;
    uint64_t bytes;
    uint32_t option; /* finalize, or if_present */
    uint32_t status;
    uint64_t item;
    uint64_t value;
    uint64_t number;
} row;

/* ---- One function for each call: it passes what the row has ---- */

static const lw_item *items_of(const row *row)
{
    static lw_item items[ITEMS];

    for (size_t i = 0; i < row->count; i++) {
        items[i] = row->items[i < LISTED ? i : 0];
    }
    return row->count != 0 ? items : NULL;
}

/* The first eight bytes of a buffer as a number. */
static uint64_t number_in(const uint8_t *buffer)
{
    uint64_t number = 0;

    for (int i = 0; i < 8; i++) {
        number = number << 8 | buffer[i];
    }
    return number;
}

/* A buffer that begins with the bytes of a number. */
static uint8_t *bytes_of(uint64_t number)
{
    static uint8_t bytes[LARGE_SIZE];

    for (int i = 0; i < 8; i++) {
        bytes[i] = (uint8_t)(number >> (56 - 8 * i));
    }
    return bytes;
}

/* Reads with one of the calls that do. */
static uint32_t read_by(uint32_t (*read)(lw_table *, uint64_t, void *, size_t, lw_fault *), lw_table *table,
                        const row *row, uint64_t *number, lw_fault *fault)
{
    uint8_t *buffer = bytes_of(*number);
    uint32_t status = read(table, row->at, row->len != 0 ? buffer : NULL, row->len, fault);

    *number = number_in(buffer);
    return status;
}

/* A query has no fault: here it gets that of its status. */
static uint32_t asked(uint32_t status, lw_fault *fault)
{
    *fault = (lw_fault){.status = status};
    return status;
}

static uint32_t enter(lw_table *table, const row *row, uint64_t *number, lw_fault *fault)
{
    return lw_enter(table, row->device, items_of(row), row->count, number, fault);
}

static uint32_t leave(lw_table *table, const row *row, uint64_t *number, lw_fault *fault)
{
    (void)number;
    return lw_exit(table, row->at, fault);
}

static uint32_t enter_data(lw_table *table, const row *row, uint64_t *number, lw_fault *fault)
{
    (void)number;
    return lw_enter_data(table, row->device, items_of(row), row->count, lw_queue(row->async), fault);
}

static uint32_t exit_data(lw_table *table, const row *row, uint64_t *number, lw_fault *fault)
{
    (void)number;
    return lw_exit_data(table, row->device, items_of(row), row->count, row->option, lw_queue(row->async), fault);
}

static uint32_t update(lw_table *table, const row *row, uint64_t *number, lw_fault *fault)
{
    (void)number;
    return lw_update(table, row->device, items_of(row), row->count, row->option, lw_queue(row->async), fault);
}

static uint32_t wait_for(lw_table *table, const row *row, uint64_t *number, lw_fault *fault)
{
    return lw_wait(table, row->device, row->at, number, fault);
}

static uint32_t step(lw_table *table, const row *row, uint64_t *number, lw_fault *fault)
{
    return lw_step(table, row->device, row->at, number, fault);
}

static uint32_t host_write(lw_table *table, const row *row, uint64_t *number, lw_fault *fault)
{
    (void)number;
    return lw_host_write(table, row->at, row->len != 0 ? bytes_of(row->bytes) : NULL, row->len, fault);
}

static uint32_t host_read(lw_table *table, const row *row, uint64_t *number, lw_fault *fault)
{
    return read_by(lw_host_read, table, row, number, fault);
}

static uint32_t device_read(lw_table *table, const row *row, uint64_t *number, lw_fault *fault)
{
    uint8_t *buffer = bytes_of(*number);
    uint32_t status = lw_device_read(table, row->device, row->at, row->len != 0 ? buffer : NULL, row->len, fault);

    *number = number_in(buffer);
    return status;
}

static uint32_t lend(lw_table *table, const row *row, uint64_t *number, lw_fault *fault)
{
    return lw_lend(table, row->region, row->at, row->len, number, fault);
}

static uint32_t lease_read(lw_table *table, const row *row, uint64_t *number, lw_fault *fault)
{
    return read_by(lw_lease_read, table, row, number, fault);
}

static uint32_t lease_write(lw_table *table, const row *row, uint64_t *number, lw_fault *fault)
{
    (void)number;
    return lw_lease_write(table, row->at, bytes_of(row->bytes), row->len, fault);
}

/* The bytes of a lease where they lie, as many as the row tells: the first eight as a number, once those of the row are
   written there, if it has some. */
static uint32_t lease_bytes(lw_table *table, const row *row, uint64_t *number, lw_fault *fault)
{
    void *bytes = NULL;
    uint64_t len = UNTOUCHED;
    uint32_t status = lw_lease_bytes(table, row->at, &bytes, &len, fault);

    if (status == LW_DONE && len == row->len) {
        if (row->bytes != 0) {
            memcpy(bytes, bytes_of(row->bytes), len);
        }
        *number = number_in(bytes);
    } else if (bytes != NULL || len != UNTOUCHED) {
        *number = len;
    }
    return status;
}

static uint32_t gather(lw_table *table, const row *row, uint64_t *number, lw_fault *fault)
{
    (void)number;
    return lw_gather(table, row->at, fault);
}

static uint32_t rebase(lw_table *table, const row *row, uint64_t *number, lw_fault *fault)
{
    (void)row;
    return lw_rebase(table, number, fault);
}

static uint32_t array(lw_table *table, const row *row, uint64_t *number, lw_fault *fault)
{
    return lw_array(table, row->len, number, fault);
}

static uint32_t is_present(lw_table *table, const row *row, uint64_t *number, lw_fault *fault)
{
    return asked(lw_is_present(table, row->device, row->at, row->len, number), fault);
}

static uint32_t device_address(lw_table *table, const row *row, uint64_t *number, lw_fault *fault)
{
    return asked(lw_device_address(table, row->device, row->at, number), fault);
}

static uint32_t structured(lw_table *table, const row *row, uint64_t *number, lw_fault *fault)
{
    lw_counters_of counters = {.structured = *number};
    uint32_t status = lw_counters(table, row->device, row->at, row->len, &counters);

    *number = counters.structured;
    return asked(status, fault);
}

static uint32_t dynamic(lw_table *table, const row *row, uint64_t *number, lw_fault *fault)
{
    lw_counters_of counters = {.dynamic = *number};
    uint32_t status = lw_counters(table, row->device, row->at, row->len, &counters);

    *number = counters.dynamic;
    return asked(status, fault);
}

static uint32_t attachment(lw_table *table, const row *row, uint64_t *number, lw_fault *fault)
{
    return asked(lw_attachment(table, row->device, row->at, number), fault);
}

/* The start of the first mapped range from an address on. The report has the rest. */
static uint32_t mapped(lw_table *table, const row *row, uint64_t *number, lw_fault *fault)
{
    lw_mapped_range range = {.start = *number};
    uint32_t status = lw_mapped(table, row->device, row->at, &range);

    *number = range.start;
    return asked(status, fault);
}

/* What an item of the last event did, but for its pointer, as one number. */
static uint32_t did(lw_table *table, const row *row, uint64_t *number, lw_fault *fault)
{
    lw_item_did told;
    uint32_t status = lw_did(table, row->at, &told);

    if (status == LW_DONE) {
        *number = DID(told.step, told.aim, told.block, told.holder, told.place | told.target);
    }
    return asked(status, fault);
}

/* Which way it copied, how many bytes, whether the end of its region copies them back, and how often its pointer is
   attached then, as one number. */
#define COPIED(way, len, back, times) ((uint64_t)(len) << 24 | (times) << 16 | (back) << 8 | (way))

static uint32_t did_copy(lw_table *table, const row *row, uint64_t *number, lw_fault *fault)
{
    lw_item_did told;
    uint32_t status = lw_did(table, row->at, &told);

    if (status == LW_DONE) {
        *number = COPIED(told.way, told.len, told.back, told.times);
    }
    return asked(status, fault);
}

/* Whether an array of so many elements has what each item did, and else stays: how many are told so. */
static uint32_t all_did(lw_table *table, const row *row, uint64_t *number, lw_fault *fault)
{
    lw_item_did all[ITEMS], one, untouched;
    uint32_t status;

    memset(&untouched, 0xEE, sizeof untouched);
    memset(all, 0xEE, sizeof all);
    status = lw_dids(table, row->count != 0 ? all : NULL, row->count);
    if (status == LW_DONE) {
        *number = 0;
        for (size_t i = 0; i < ITEMS; i++) {
            const bool is_told = i < row->count && lw_did(table, i, &one) == LW_DONE;

            if (memcmp(&all[i], is_told ? &one : &untouched, sizeof one) != 0) {
                *number = UNTOUCHED;
                break;
            }
            *number += is_told;
        }
    }
    return asked(status, fault);
}

/* The start and the length of the mapped range that has an address, and its counters, as one number. */
#define RANGE(start, len, structured, dynamic) \
    ((uint64_t)(start) << 24 | (uint64_t)(len) << 16 | (structured) << 8 | (dynamic))

static uint32_t range_at(lw_table *table, const row *row, uint64_t *number, lw_fault *fault)
{
    lw_mapped_range range;
    uint32_t status = lw_range_at(table, row->device, row->at, &range);

    if (status == LW_DONE) {
        *number = RANGE(range.start, range.len, range.structured, range.dynamic);
    }
    return asked(status, fault);
}

/* The pointer that it attached or detached. */
static uint32_t did_to(lw_table *table, const row *row, uint64_t *number, lw_fault *fault)
{
    lw_item_did told = {.pointer = *number};
    uint32_t status = lw_did(table, row->at, &told);

    *number = told.pointer;
    return asked(status, fault);
}

/* The pointer of the first attachment in a section, its counter and its block, as one number. */
#define ATTACHED(pointer, count, block) ((uint64_t)(pointer) << 16 | (count) << 8 | (block))

static uint32_t attached(lw_table *table, const row *row, uint64_t *number, lw_fault *fault)
{
    lw_attached_pointer told;
    uint32_t status = lw_attached(table, row->device, row->at, row->len, &told);

    if (status == LW_DONE) {
        *number = ATTACHED(told.pointer, told.count, told.block);
    }
    return asked(status, fault);
}

/* The place of a block whose mapping has ended, its size and how many copies name it, as one number. */
#define ENDED(place, size, pins) ((uint64_t)(place) << 24 | (size) << 8 | (pins))

static uint32_t ended_block(lw_table *table, const row *row, uint64_t *number, lw_fault *fault)
{
    lw_ended_mapping told;
    uint32_t status = lw_ended_block(table, row->device, row->at, &told);

    if (status == LW_DONE) {
        *number = ENDED(told.place, told.size, told.pins);
    }
    return asked(status, fault);
}

/* A copy that waits, whose place the row has as its length: its block, where in that it begins, its section and its way,
   as one number. */
#define COPY(block, offset, start, len, way) \
    ((uint64_t)(start) << 32 | (uint64_t)(block) << 24 | (uint64_t)(offset) << 16 | (uint64_t)(len) << 8 | (way))

static uint32_t transfer(lw_table *table, const row *row, uint64_t *number, lw_fault *fault)
{
    lw_waiting_copy told;
    uint32_t status = lw_transfer(table, row->device, row->at, row->len, &told);

    if (status == LW_DONE) {
        *number = COPY(told.block, told.offset, told.start, told.len, told.way);
    }
    return asked(status, fault);
}

/* An item as one number. */
#define ITEM(clause, start, len, pointer) \
    ((uint64_t)(pointer) << 48 | (uint64_t)(start) << 24 | (uint64_t)(len) << 8 | (clause))

/* What an item of a region holds, whose place the row has as its length: its blocks and its pointer as one number. */
#define HELD(block, holder, pointer) ((uint64_t)(pointer) << 16 | (holder) << 8 | (block))

static uint32_t holding(lw_table *table, const row *row, uint64_t *number, lw_fault *fault)
{
    lw_held_item told;
    uint32_t status = lw_held(table, row->at, row->len, &told);

    if (status == LW_DONE) {
        *number = HELD(told.block, told.holder, told.pointer);
    }
    return asked(status, fault);
}

static uint32_t holding_item(lw_table *table, const row *row, uint64_t *number, lw_fault *fault)
{
    lw_held_item told;
    uint32_t status = lw_held(table, row->at, row->len, &told);

    if (status == LW_DONE) {
        *number = ITEM(told.item.clause, told.item.start, told.item.len, told.item.pointer);
    }
    return asked(status, fault);
}

/* The place of a hole and its size, as one number. */
#define HOLE(place, size) ((uint64_t)(place) << 16 | (size))

static uint32_t hole(lw_table *table, const row *row, uint64_t *number, lw_fault *fault)
{
    lw_free_range told;
    uint32_t status = lw_hole(table, row->device, row->at, &told);

    if (status == LW_DONE) {
        *number = HOLE(told.place, told.size);
    }
    return asked(status, fault);
}

/* A lease that is out, its device and block, and where its section begins in that and how long it is, as one number. */
#define LEASE(number, device, block, offset, len) \
    ((uint64_t)(number) << 48 | (uint64_t)(device) << 40 | (uint64_t)(block) << 32 | (uint64_t)(offset) << 16 | (len))

static uint32_t lease(lw_table *table, const row *row, uint64_t *number, lw_fault *fault)
{
    lw_lent_lease told;
    uint32_t status = lw_lease(table, row->at, &told);

    if (status == LW_DONE) {
        *number = LEASE(told.lease, told.device, told.block, told.offset, told.len);
    }
    return asked(status, fault);
}

/* An event but for its section and its bytes, as one number. */
#define EVENT(kind, option, device, queue, region, lease, block, count) \
    ((uint64_t)(kind) << 56 | (uint64_t)(option) << 52 | (uint64_t)(device) << 48 | ((uint64_t)(queue) & 0xFF) << 40 | \
     (uint64_t)(region) << 32 | (uint64_t)(lease) << 24 | (uint64_t)(block) << 16 | (count))

static uint32_t event(lw_table *table, const row *row, uint64_t *number, lw_fault *fault)
{
    lw_stored_event told;
    uint32_t status = lw_event(table, row->at, &told);

    if (status == LW_DONE) {
        *number = EVENT(told.kind, told.option, told.device, told.queue, told.region, told.lease, told.block,
                        told.count);
    }
    return asked(status, fault);
}

/* The section of an event, and how many bytes are stored with it. */
#define SECTION(start, len, stored) ((uint64_t)(start) << 16 | (len) << 8 | (stored))

static uint32_t event_section(lw_table *table, const row *row, uint64_t *number, lw_fault *fault)
{
    lw_stored_event told;
    uint32_t status = lw_event(table, row->at, &told);

    if (status == LW_DONE) {
        *number = SECTION(told.start, told.len, told.stored);
    }
    return asked(status, fault);
}

/* The item of an event whose place the row has as its length. */
static uint32_t event_item(lw_table *table, const row *row, uint64_t *number, lw_fault *fault)
{
    lw_item named;
    uint32_t status = lw_event_item(table, row->at, row->len, &named);

    if (status == LW_DONE) {
        *number = ITEM(named.clause, named.start, named.len, named.pointer);
    }
    return asked(status, fault);
}

static uint32_t event_bytes(lw_table *table, const row *row, uint64_t *number, lw_fault *fault)
{
    return read_by(lw_event_bytes, table, row, number, fault);
}

static uint32_t reset(lw_table *table, const row *row, uint64_t *number, lw_fault *fault)
{
    (void)row;
    (void)number;
    return lw_table_reset(table, fault);
}

static uint32_t innermost(lw_table *table, const row *row, uint64_t *number, lw_fault *fault)
{
    (void)row;
    return asked(lw_innermost(table, number), fault);
}

/* What is left of the events, or of the regions. */
static uint32_t events_left(lw_table *table, const row *row, uint64_t *number, lw_fault *fault)
{
    lw_left_over left;
    uint32_t status = lw_left(table, &left);

    (void)row;
    if (status == LW_DONE) {
        *number = left.tickets;
    }
    return asked(status, fault);
}

static uint32_t regions_left(lw_table *table, const row *row, uint64_t *number, lw_fault *fault)
{
    lw_left_over left;
    uint32_t status = lw_left(table, &left);

    (void)row;
    if (status == LW_DONE) {
        *number = left.regions;
    }
    return asked(status, fault);
}

static uint32_t queue_len(lw_table *table, const row *row, uint64_t *number, lw_fault *fault)
{
    return asked(lw_queue_len(table, row->device, row->at, number), fault);
}

static uint32_t used(lw_table *table, const row *row, uint64_t *number, lw_fault *fault)
{
    (void)row;
    return asked(lw_used(table, row->device, number), fault);
}

static uint32_t regions(lw_table *table, const row *row, uint64_t *number, lw_fault *fault)
{
    (void)row;
    return asked(lw_regions(table, number), fault);
}

static uint32_t events(lw_table *table, const row *row, uint64_t *number, lw_fault *fault)
{
    (void)row;
    return asked(lw_events(table, number), fault);
}

/* The report into a buffer of this length. */
static uint32_t report(lw_table *table, const row *row, uint64_t *number, lw_fault *fault)
{
    char buffer[TEXT];

    return lw_report(table, row->len != 0 ? buffer : NULL, row->len, number, fault);
}

/* ---- The scenes ---- */

static const row USUAL[] = {
    {"the report into no buffer", report, .len = 0, SHORT(47)},
    {"the report into a buffer one too short", report, .len = 46, SHORT(47)},
    {"the report into a buffer as long", report, .len = 47, ANSWERS(46)},

    {"an array", array, .len = 24, ANSWERS(LW_HOST_BASE)},
    {"the next one", array, .len = 8, ANSWERS(LW_HOST_BASE + 32)},
    {"one of no bytes", array, .len = 0, ANSWERS(LW_HOST_BASE + 48)},
    {"one too long", array, .len = HOST_SIZE - 47, REFUSED(LW_OUT_OF_HOST, 0, 0)},
    {"one much too long", array, .len = UINT64_MAX, REFUSED(LW_OUT_OF_HOST, 0, 0)},
    {"one of all that is left", array, .len = HOST_SIZE - 48, ANSWERS(LW_HOST_BASE + 48)},
    {"one of a byte more", array, .len = 1, REFUSED(LW_OUT_OF_HOST, 0, 0)},

    {"host write", host_write, .at = A, .len = 8, .bytes = 0x0102030405060708, DONE},
    {"host write of no bytes, anywhere", host_write, .at = 0, DONE},
    {"host write before host memory", host_write, .at = A - 1, .len = 2, REFUSED(LW_OUT_OF_HOST, 0, 0)},
    {"host write past its end", host_write, .at = END - 1, .len = 2, REFUSED(LW_OUT_OF_HOST, 0, 0)},
    {"host write past the last address", host_write, .at = UINT64_MAX, .len = 8, REFUSED(LW_OUT_OF_HOST, 0, 0)},
    {"host read", host_read, .at = A, .len = 4, ANSWERS(0x01020304EEEEEEEE)},
    {"host read of no bytes", host_read, .at = 0, DONE},
    {"host read past its end", host_read, .at = END, .len = 1, REFUSED(LW_OUT_OF_HOST, 0, 0)},
    {"both writes are events", events, ANSWERS(2)},
    {"of a thousand these are left", events_left, ANSWERS(998)},
    {"both regions are left", regions_left, ANSWERS(2)},
    {"no region is open", innermost, REFUSED(LW_ABSENT, 0, 0)},
    {"all of the device is a hole", hole, .at = 0, ANSWERS(HOLE(LW_DEVICE_BASE, 64))},
    {"there is none behind its first address", hole, .at = LW_DEVICE_BASE + 1, REFUSED(LW_ABSENT, 0, 0)},

    {"data", enter, {{LW_COPY, A, 16, 0}}, 1, ANSWERS(1)},
    {"what it did", did, .at = 0, ANSWERS(DID(LW_BORN, 0, 1, 0, LW_DEVICE_BASE))},
    {"with no pointer", did_to, .at = 0, ANSWERS(0)},
    {"what it copied", did_copy, .at = 0, ANSWERS(COPIED(LW_IN, 16, 1, 0))},
    {"it has one item", did, .at = 1, REFUSED(LW_ABSENT, 0, 0)},
    {"what its region holds", holding, .at = 1, ANSWERS(HELD(1, 0, 0))},
    {"by its item", holding_item, .at = 1, ANSWERS(ITEM(LW_COPY, A, 16, 0))},
    {"no second one", holding, .at = 1, .len = 1, REFUSED(LW_ABSENT, 0, 0)},
    {"nor one far behind", holding, .at = 1, .len = UINT64_MAX, REFUSED(LW_ABSENT, 0, 0)},
    {"no other region holds something", holding, .at = 2, REFUSED(LW_ABSENT, 0, 0)},
    {"all that it did", all_did, .count = 3, ANSWERS(1)},
    {"nothing of it", all_did, .count = 0, ANSWERS(0)},
    {"data without items", enter, .count = 0, ANSWERS(2)},
    {"which did nothing", did, .at = 0, REFUSED(LW_ABSENT, 0, 0)},
    {"the second is the innermost", innermost, ANSWERS(2)},
    {"no region is left", regions_left, ANSWERS(0)},
    {"as many events fewer", events_left, ANSWERS(996)},
    {"data in as many regions as may be", enter, {{LW_PRESENT, A, 16, 0}}, 1, REFUSED(LW_NO_ALLOWANCE, 0, 0)},
    {"end data", leave, .at = 2, DONE},
    {"end data twice", leave, .at = 2, REFUSED(LW_NO_REGION, 0, 2)},
    {"end data of no region", leave, .at = 0, REFUSED(LW_NO_REGION, 0, 0)},
    {"data with a clause of exit data", enter, {{LW_COPY, A, 16, 0}, {LW_DELETE, A, 16, 0}}, 2,
     REFUSED(LW_BAD_CLAUSE, 1, 0)},
    {"data with a clause that is none", enter, {{0, A, 16, 0}}, 1, REFUSED(LW_BAD_CLAUSE, 0, 0)},
    {"data with clauses that are none, too many", enter, {{14, A, 16, 0}}, ITEMS, REFUSED(LW_BAD_CLAUSE, 0, 0)},
    {"data of too many items", enter, {{LW_PRESENT, A, 16, 0}, {LW_PRESENT, A, 16, 0}}, ITEMS,
     REFUSED(LW_TOO_MANY_ITEMS, 0, ITEMS)},
    {"data outside of host memory", enter, {{LW_PRESENT, A, 16, 0}, {LW_CREATE, END - 8, 16, 0}}, 2,
     REFUSED(LW_OUT_OF_HOST, 1, 0)},
    {"data at a pointer that is not aligned", enter, {{LW_ATTACH, A + 4, 0, 0}}, 1, REFUSED(LW_MISALIGNED, 0, 0)},
    {"data of a section that is partly present", enter, {{LW_CREATE, A + 8, 16, 0}}, 1,
     REFUSED(LW_PARTLY_PRESENT, 0, 0)},
    {"data present of an absent section", enter, {{LW_PRESENT, B, 16, 0}}, 1, REFUSED(LW_NOT_PRESENT, 0, 0)},
    {"data counting more than may be", enter, {{LW_PRESENT, A, 16, 0}, {LW_PRESENT, A, 16, 0}}, 2,
     REFUSED(LW_COUNTER_FULL, 1, 0)},

    {"device read", device_read, .at = A, .len = 8, ANSWERS(0x0102030405060708)},
    {"device read of an absent section", device_read, .at = B, .len = 8, REFUSED(LW_ABSENT, 0, 0)},
    {"device read of no bytes", device_read, .at = A, REFUSED(LW_ABSENT, 0, 0)},
    {"present", is_present, .at = A, .len = 16, ANSWERS(1)},
    {"present in part", is_present, .at = A, .len = 17, ANSWERS(0)},
    {"no bytes are not present", is_present, .at = A, .len = 0, ANSWERS(0)},
    {"device address", device_address, .at = A + 3, ANSWERS(LW_DEVICE_BASE + 3)},
    {"device address of an absent byte", device_address, .at = B, REFUSED(LW_ABSENT, 0, 0)},
    {"structured counter", structured, .at = A, .len = 16, ANSWERS(1)},
    {"dynamic counter", dynamic, .at = A, .len = 16, ANSWERS(0)},
    {"counters of an absent section", structured, .at = B, .len = 16, REFUSED(LW_ABSENT, 0, 0)},
    {"first mapped range", mapped, .at = 0, ANSWERS(A)},
    {"mapped range behind the last", mapped, .at = A + 1, REFUSED(LW_ABSENT, 0, 0)},
    {"the range at its first address", range_at, .at = A, ANSWERS(RANGE(A, 16, 1, 0))},
    {"the range at its last address", range_at, .at = A + 15, ANSWERS(RANGE(A, 16, 1, 0))},
    {"the range behind it", range_at, .at = A + 16, REFUSED(LW_ABSENT, 0, 0)},
    {"the range before it", range_at, .at = A - 1, REFUSED(LW_ABSENT, 0, 0)},
    {"used", used, ANSWERS(16)},
    {"the hole behind what is used", hole, .at = LW_DEVICE_BASE, ANSWERS(HOLE(LW_DEVICE_BASE + 16, 48))},
    {"regions", regions, ANSWERS(1)},

    {"enter data async", enter_data, {{LW_COPYIN, B, 16, 0}}, 1, .async = 3, DONE},
    {"what it put there", did_copy, .at = 0, ANSWERS(COPIED(LW_IN, 16, 0, 0))},
    {"queue length", queue_len, .at = 3, ANSWERS(1)},
    {"the copy in it", transfer, .at = 3, ANSWERS(COPY(2, 0, B, 16, LW_IN))},
    {"no copy behind it", transfer, .at = 3, .len = 1, REFUSED(LW_ABSENT, 0, 0)},
    {"nor far behind", transfer, .at = 3, .len = UINT64_MAX, REFUSED(LW_ABSENT, 0, 0)},
    {"nor in the next queue", transfer, .at = 4, REFUSED(LW_ABSENT, 0, 0)},
    {"nor in no queue", transfer, .at = UINT64_MAX, REFUSED(LW_ABSENT, 0, 0)},
    {"length of no queue", queue_len, .at = 16, ANSWERS(0)},
    {"enter data async in no queue", enter_data, {{LW_CREATE, C, 16, 0}}, 1, .async = 16, REFUSED(LW_NO_QUEUE, 0, 16)},
    {"enter data async below all", enter_data, {{LW_CREATE, C, 16, 0}}, 1, .async = -3,
     REFUSED(LW_NO_QUEUE, 0, UINT64_MAX - 2)},
    {"enter data async in a full queue", enter_data, {{LW_COPYIN, C, 16, 0}}, 1, .async = 3,
     REFUSED(LW_QUEUE_FULL, 0, 3)},
    {"enter data with a clause of data", enter_data, {{LW_COPY, C, 16, 0}}, 1, .async = SYNC,
     REFUSED(LW_BAD_CLAUSE, 0, 0)},
    {"enter data of more than the device has", enter_data, {{LW_CREATE_ZERO, C, 48, 0}}, 1, .async = SYNC,
     REFUSED(LW_DEVICE_FULL, 0, 48)},
    {"step", step, .at = 3, ANSWERS(1)},
    {"what it copied", did, .at = 0, ANSWERS(DID(LW_MOVED, 0, 2, 0, UINT64_C(0)))},
    {"which way is told before", did_copy, .at = 0, ANSWERS(0)},
    {"all of it", all_did, .count = 2, ANSWERS(1)},
    {"it copied once", did, .at = 1, REFUSED(LW_ABSENT, 0, 0)},
    {"step of an empty queue", step, .at = 3, ANSWERS(0)},
    {"step of no queue", step, .at = 16, REFUSED(LW_NO_QUEUE, 0, 16)},
    {"update async", update, {{LW_DEVICE, B + 4, 8, 0}}, 1, .async = 15, DONE},
    {"what it put there", did_copy, .at = 0, ANSWERS(COPIED(LW_IN, 8, 0, 0))},
    {"the copy that waits", transfer, .at = 15, ANSWERS(COPY(2, 4, B + 4, 8, LW_IN))},
    {"update async without a number", update, {{LW_DEVICE, B, 16, 0}}, 1, .async = NOVAL, DONE},
    {"it waits in the first queue", queue_len, .at = 0, ANSWERS(1)},
    {"wait for all queues", wait_for, .at = NO_QUEUE, ANSWERS(2)},
    {"wait for an empty queue", wait_for, .at = 15, ANSWERS(0)},
    {"wait for no queue", wait_for, .at = 16, REFUSED(LW_NO_QUEUE, 0, 16)},
    {"update", update, {{LW_SELF, A, 8, 0}}, 1, .async = SYNC, DONE},
    {"what it did", did, .at = 0, ANSWERS(DID(LW_MOVED, 0, 1, 0, UINT64_C(0)))},
    {"what it copied", did_copy, .at = 0, ANSWERS(COPIED(LW_OUT, 8, 0, 0))},
    {"update with a clause of data", update, {{LW_SELF, A, 8, 0}, {LW_COPYIN, A, 8, 0}}, 2, .async = SYNC,
     REFUSED(LW_BAD_CLAUSE, 1, 0)},
    {"update of an absent section", update, {{LW_SELF, C, 8, 0}}, 1, .async = SYNC, REFUSED(LW_NOT_PRESENT, 0, 0)},
    {"update of it if_present", update, {{LW_SELF, C, 8, 0}}, 1, .async = SYNC, .option = 1, DONE},
    {"which did nothing", did, .at = 0, ANSWERS(0)},
    {"and copied nothing", did_copy, .at = 0, ANSWERS(0)},

    {"host write of a pointer to A", host_write, .at = C, .len = 8, .bytes = 0x0010000000000000, DONE},
    {"enter data of the pointer", enter_data, {{LW_COPYIN, C, 16, 0}}, 1, .async = SYNC, DONE},
    {"attach", enter_data, {{LW_ATTACH, C, 0, 0}}, 1, .async = SYNC, DONE},
    {"what it did", did, .at = 0, ANSWERS(DID(0, LW_AIMED, 0, 3, LW_DEVICE_BASE))},
    {"once", did_copy, .at = 0, ANSWERS(COPIED(0, 0, 0, 1))},
    {"to the pointer", did_to, .at = 0, ANSWERS(C)},
    {"attachment counter", attachment, .at = C, ANSWERS(1)},
    {"the attached pointer", attached, .at = C, .len = 16, ANSWERS(ATTACHED(C, 1, 3))},
    {"none behind it", attached, .at = C + 8, .len = 8, REFUSED(LW_ABSENT, 0, 0)},
    {"none past the range", attached, .at = C, .len = 17, REFUSED(LW_ABSENT, 0, 0)},
    {"the device has a pointer to A's place", device_read, .at = C, .len = 8, ANSWERS(0x0000000001000000)},
    {"detach", exit_data, {{LW_DETACH, C, 0, 0}}, 1, .async = SYNC, DONE},
    {"what it did", did, .at = 0, ANSWERS(DID(0, LW_DETACHED, 0, 3, UINT64_C(0)))},
    {"for good", did_copy, .at = 0, ANSWERS(0)},
    {"attachment counter of a detached pointer", attachment, .at = C, ANSWERS(0)},
    {"the device has the host's pointer", device_read, .at = C, .len = 8, ANSWERS(0x0010000000000000)},
    {"data of a section and its pointer", enter, {{LW_PRESENT, A, 16, C}}, 1, ANSWERS(3)},
    {"what it did", did, .at = 0, ANSWERS(DID(LW_COUNTED, LW_AIMED, 1, 3, LW_DEVICE_BASE))},
    {"with no copy", did_copy, .at = 0, ANSWERS(COPIED(0, 0, 0, 1))},
    {"the pointer is attached", attachment, .at = C, ANSWERS(1)},
    {"both are held", holding, .at = 3, ANSWERS(HELD(1, 3, C))},
    {"by the item", holding_item, .at = 3, ANSWERS(ITEM(LW_PRESENT, A, 16, C))},
    {"the end of that data", leave, .at = 3, DONE},
    {"which holds nothing then", holding, .at = 3, REFUSED(LW_ABSENT, 0, 0)},
    {"what it did", did, .at = 0, ANSWERS(DID(LW_DROPPED, LW_DETACHED, 1, 3, UINT64_C(0)))},
    {"the pointer is detached", attachment, .at = C, ANSWERS(0)},

    {"enter data once more", enter_data, {{LW_CREATE, B, 16, 0}}, 1, .async = SYNC, DONE},
    {"the range is counted twice", range_at, .at = B + 8, ANSWERS(RANGE(B, 16, 0, 2))},
    {"enter data counting more than may be", enter_data, {{LW_CREATE, B, 16, 0}}, 1, .async = SYNC,
     REFUSED(LW_COUNTER_FULL, 0, 0)},
    {"exit data with a clause of enter data", exit_data, {{LW_COPYIN, B, 16, 0}}, 1, .async = SYNC,
     REFUSED(LW_BAD_CLAUSE, 0, 0)},
    {"exit data of two ranges at once", exit_data, {{LW_DELETE, B + 8, 16, 0}}, 1, .async = SYNC,
     REFUSED(LW_PARTLY_PRESENT, 0, 0)},
    {"exit data async in no queue", exit_data, {{LW_DELETE, B, 16, 0}}, 1, .async = 99, REFUSED(LW_NO_QUEUE, 0, 99)},
    {"exit data", exit_data, {{LW_DELETE, B, 16, 0}}, 1, .async = SYNC, DONE},
    {"what it did", did, .at = 0, ANSWERS(DID(LW_DROPPED, 0, 2, 0, UINT64_C(0)))},
    {"dynamic counter after one exit", dynamic, .at = B, .len = 16, ANSWERS(1)},
    {"enter data again", enter_data, {{LW_CREATE, B, 16, 0}}, 1, .async = SYNC, DONE},
    {"exit data finalize", exit_data, {{LW_COPYOUT, B, 16, 0}}, 1, .async = SYNC, .option = UINT32_MAX, DONE},
    {"what it did", did, .at = 0, ANSWERS(DID(LW_ENDED_RANGE, 0, 2, 0, UINT64_C(0)))},
    {"what it copied", did_copy, .at = 0, ANSWERS(COPIED(LW_OUT, 16, 0, 0))},
    {"its range is there no more", range_at, .at = B, REFUSED(LW_ABSENT, 0, 0)},
    {"B is not present then", is_present, .at = B, .len = 16, ANSWERS(0)},
    {"A's and C's blocks are used", used, ANSWERS(32)},

    {"no lease is out", lease, .at = 0, REFUSED(LW_ABSENT, 0, 0)},
    {"lend", lend, .region = 1, .at = A + 4, .len = 8, ANSWERS(1)},
    {"its lease is out", lease, .at = 0, ANSWERS(LEASE(1, 0, 1, 4, 8))},
    {"also from its number on", lease, .at = 1, ANSWERS(LEASE(1, 0, 1, 4, 8))},
    {"no lease above it", lease, .at = 2, REFUSED(LW_ABSENT, 0, 0)},
    {"lend in no region", lend, .region = 9, .at = A, .len = 8, REFUSED(LW_NO_REGION, 0, 9)},
    {"lend outside of host memory", lend, .region = 1, .at = END, .len = 8, REFUSED(LW_OUT_OF_HOST, 0, 0)},
    {"lend an absent section", lend, .region = 1, .at = B, .len = 8, REFUSED(LW_NOT_PRESENT, 0, 0)},
    {"lend no bytes", lend, .region = 1, .at = A, .len = 0, REFUSED(LW_NOT_PRESENT, 0, 0)},
    {"lend a section that is partly present", lend, .region = 1, .at = A + 8, .len = 16,
     REFUSED(LW_PARTLY_PRESENT, 0, 0)},
    {"lend a block twice", lend, .region = 1, .at = A, .len = 4, REFUSED(LW_LENT, 0, 1)},
    {"device read of a lent block", device_read, .at = A, .len = 4, REFUSED(LW_ABSENT, 0, 0)},
    {"update of a lent block", update, {{LW_SELF, A, 8, 0}}, 1, .async = SYNC, REFUSED(LW_LENT, 0, 1)},
    {"end data while its block is lent", leave, .at = 1, REFUSED(LW_LENT, 0, 1)},
    {"update async of a lent block", update, {{LW_SELF, A, 8, 0}}, 1, .async = 5, DONE},
    {"its copy waits", transfer, .at = 5, ANSWERS(COPY(1, 0, A, 8, LW_OUT))},
    {"step of a copy of a lent block", step, .at = 5, REFUSED(LW_LENT, 0, 1)},
    {"wait for it", wait_for, .at = 5, REFUSED(LW_LENT, 0, 1)},
    {"wait for all queues, with it", wait_for, .at = NO_QUEUE, REFUSED(LW_LENT, 0, 1)},
    {"lease read", lease_read, .at = 1, .len = 8, ANSWERS(0x0506070800000000)},
    {"lease read into a buffer too short", lease_read, .at = 1, .len = 7, REFUSED(LW_BAD_LENGTH, 0, 8)},
    {"lease read into a buffer too long", lease_read, .at = 1, .len = 9, REFUSED(LW_BAD_LENGTH, 0, 8)},
    {"lease read of no lease", lease_read, .at = 2, .len = 8, REFUSED(LW_NO_LEASE, 0, 2)},
    {"lease write", lease_write, .at = 1, .len = 8, .bytes = 0x1112131415161718, DONE},
    {"its bytes where they lie", lease_bytes, .at = 1, .len = 8, ANSWERS(0x1112131415161718)},
    {"a kernel writes them there", lease_bytes, .at = 1, .len = 8, .bytes = 0x2122232425262728,
     ANSWERS(0x2122232425262728)},
    {"lease read of what it wrote", lease_read, .at = 1, .len = 8, ANSWERS(0x2122232425262728)},
    {"the bytes of no lease", lease_bytes, .at = 2, .len = 8, REFUSED(LW_NO_LEASE, 0, 2)},
    {"lease write of too few bytes", lease_write, .at = 1, .len = 7, REFUSED(LW_BAD_LENGTH, 0, 8)},
    {"lease write of no lease", lease_write, .at = 2, .len = 8, REFUSED(LW_NO_LEASE, 0, 2)},
    {"gather of no lease", gather, .at = 2, REFUSED(LW_NO_LEASE, 0, 2)},
    {"gather", gather, .at = 1, DONE},
    {"gather twice", gather, .at = 1, REFUSED(LW_NO_LEASE, 0, 1)},
    {"lease read after gather", lease_read, .at = 1, .len = 8, REFUSED(LW_NO_LEASE, 0, 1)},
    {"its bytes after gather", lease_bytes, .at = 1, .len = 8, REFUSED(LW_NO_LEASE, 0, 1)},
    {"no lease is out again", lease, .at = 0, REFUSED(LW_ABSENT, 0, 0)},
    {"the device has the kernel's bytes", device_read, .at = A, .len = 8, ANSWERS(0x0102030421222324)},
    {"the host has its own", host_read, .at = A, .len = 8, ANSWERS(0x0102030405060708)},
    {"end data copies out", leave, .at = 1, DONE},
    {"which its start told", did_copy, .at = 0, ANSWERS(0)},
    {"the host has the kernel's bytes", host_read, .at = A, .len = 8, ANSWERS(0x0102030421222324)},
    {"the block stays while a copy waits", used, ANSWERS(32)},
    {"its mapping has ended", ended_block, .at = 0, ANSWERS(ENDED(LW_DEVICE_BASE, 16, 1))},
    {"also from its place on", ended_block, .at = LW_DEVICE_BASE, ANSWERS(ENDED(LW_DEVICE_BASE, 16, 1))},
    {"no block behind it", ended_block, .at = LW_DEVICE_BASE + 1, REFUSED(LW_ABSENT, 0, 0)},
    {"step of that copy", step, .at = 5, ANSWERS(1)},
    {"the block is given back", used, ANSWERS(16)},
    {"no mapping has ended", ended_block, .at = 0, REFUSED(LW_ABSENT, 0, 0)},
    {"no region is open", regions, ANSWERS(0)},
};

/* Four devices, and what is not on them. */
static const row DEVICES[] = {
    {"host write", host_write, .at = A, .len = 8, .bytes = 0x0102030405060708, DONE},
    {"data on the last one", enter, {{LW_COPY, A, 16, 0}}, 1, .device = 3, ANSWERS(1)},
    {"data on none", enter, {{LW_COPY, A, 16, 0}}, 1, .device = 4, REFUSED(LW_NO_DEVICE, 0, 4)},
    {"what its region holds", holding, .at = 1, ANSWERS(HELD(1, 0, 0))},
    {"enter data on the second", enter_data, {{LW_COPYIN, A, 16, 0}}, 1, .device = 1, .async = SYNC, DONE},
    {"enter data on none", enter_data, {{LW_COPYIN, A, 16, 0}}, 1, .device = UINT64_MAX, .async = SYNC,
     REFUSED(LW_NO_DEVICE, 0, UINT64_MAX)},
    {"present on the last", is_present, .at = A, .len = 16, .device = 3, ANSWERS(1)},
    {"not on the first", is_present, .at = A, .len = 16, ANSWERS(0)},
    {"nor on none", is_present, .at = A, .len = 16, .device = 4, ANSWERS(0)},
    {"each has addresses of its own", device_address, .at = A, .device = 3, ANSWERS(LW_DEVICE_BASE_OF(3))},
    {"also the second", device_address, .at = A, .device = 1, ANSWERS(LW_DEVICE_BASE_OF(1))},
    {"none has some", device_address, .at = A, .device = 4, REFUSED(LW_ABSENT, 0, 0)},
    {"structured on the last", structured, .at = A, .len = 16, .device = 3, ANSWERS(1)},
    {"not on the second", structured, .at = A, .len = 16, .device = 1, ANSWERS(0)},
    {"dynamic on the second", dynamic, .at = A, .len = 16, .device = 1, ANSWERS(1)},
    {"counters on the first", dynamic, .at = A, .len = 16, REFUSED(LW_ABSENT, 0, 0)},
    {"first range of the second", mapped, .at = 0, .device = 1, ANSWERS(A)},
    {"first range of the third", mapped, .at = 0, .device = 2, REFUSED(LW_ABSENT, 0, 0)},
    {"its range at an address", range_at, .at = A, .device = 2, REFUSED(LW_ABSENT, 0, 0)},
    {"the range of the last", range_at, .at = A + 15, .device = 3, ANSWERS(RANGE(A, 16, 1, 0))},
    {"used on the last", used, .device = 3, ANSWERS(16)},
    {"used on the first", used, ANSWERS(0)},
    {"used on none", used, .device = 4, ANSWERS(0)},
    {"the hole of the last", hole, .at = 0, .device = 3, ANSWERS(HOLE(LW_DEVICE_BASE_OF(3) + 16, 48))},
    {"the first is free", hole, .at = 0, ANSWERS(HOLE(LW_DEVICE_BASE, 64))},
    {"no hole on none", hole, .at = 0, .device = 4, REFUSED(LW_ABSENT, 0, 0)},
    {"regions on all", regions, ANSWERS(1)},

    {"lend on the device of the region", lend, .region = 1, .at = A, .len = 16, ANSWERS(1)},
    {"its lease is of that device", lease, .at = 0, ANSWERS(LEASE(1, 3, 1, 0, 16))},
    {"lease write", lease_write, .at = 1, .len = 16, .bytes = 0x1112131415161718, DONE},
    {"the second is not lent", device_read, .at = A, .len = 8, .device = 1, ANSWERS(0x0102030405060708)},
    {"gather", gather, .at = 1, DONE},
    {"the last has the kernel's bytes", device_read, .at = A, .len = 8, .device = 3, ANSWERS(0x1112131415161718)},
    {"the second has its own", device_read, .at = A, .len = 8, .device = 1, ANSWERS(0x0102030405060708)},
    {"the first has none", device_read, .at = A, .len = 8, REFUSED(LW_ABSENT, 0, 0)},
    {"none has some either", device_read, .at = A, .len = 8, .device = 4, REFUSED(LW_ABSENT, 0, 0)},

    {"update async on the second", update, {{LW_DEVICE, A, 8, 0}}, 1, .device = 1, .async = 2, DONE},
    {"update on none", update, {{LW_DEVICE, A, 8, 0}}, 1, .device = 4, .async = 2, REFUSED(LW_NO_DEVICE, 0, 4)},
    {"update on the first", update, {{LW_DEVICE, A, 8, 0}}, 1, .async = 2, REFUSED(LW_NOT_PRESENT, 0, 0)},
    {"its queue", queue_len, .at = 2, .device = 1, ANSWERS(1)},
    {"that of the last", queue_len, .at = 2, .device = 3, ANSWERS(0)},
    {"that of none", queue_len, .at = 2, .device = 4, ANSWERS(0)},
    {"no mapping has ended on none", ended_block, .at = 0, .device = 4, REFUSED(LW_ABSENT, 0, 0)},
    {"nothing is attached on none", attached, .at = A, .len = 16, .device = 4, REFUSED(LW_ABSENT, 0, 0)},
    {"the innermost is on the last", innermost, ANSWERS(1)},
    {"a wait on the last", wait_for, .at = NO_QUEUE, .device = 3, ANSWERS(0)},
    {"a wait on none", wait_for, .at = NO_QUEUE, .device = 4, REFUSED(LW_NO_DEVICE, 0, 4)},
    {"a step on the last", step, .at = 2, .device = 3, ANSWERS(0)},
    {"a step on none", step, .at = 2, .device = 4, REFUSED(LW_NO_DEVICE, 0, 4)},
    {"a step on the second", step, .at = 2, .device = 1, ANSWERS(1)},

    {"end data", leave, .at = 1, DONE},
    {"the host has the last one's bytes", host_read, .at = A, .len = 8, ANSWERS(0x1112131415161718)},
    {"exit data on none", exit_data, {{LW_DELETE, A, 16, 0}}, 1, .device = 4, .async = SYNC,
     REFUSED(LW_NO_DEVICE, 0, 4)},
    {"exit data on the second", exit_data, {{LW_DELETE, A, 16, 0}}, 1, .device = 1, .async = SYNC, DONE},
    {"nothing is left there", used, .device = 1, ANSWERS(0)},
};

/* Three tickets, and room for one event in the trace. */
static const row FEW_EVENTS[] = {
    {"the first event", host_write, .at = A, .len = 1, DONE},
    {"an event in a full trace", host_write, .at = A, .len = 1, REFUSED(LW_TRACE_FULL, 0, 1)},
    {"a step in a full trace", step, .at = 0, REFUSED(LW_TRACE_FULL, 0, 1)},
    {"rebase", rebase, ANSWERS(1)},
    {"rebase of no events", rebase, ANSWERS(0)},
    {"the second event", enter, {{LW_CREATE, A, 16, 0}}, 1, ANSWERS(1)},
    {"a second rebase", rebase, ANSWERS(1)},
    {"the third event, with a lease", lend, .region = 1, .at = A, .len = 16, ANSWERS(1)},
    {"gather without a ticket", gather, .at = 1, REFUSED(LW_NO_TICKETS, 0, 0)},
    {"that lease stays", lease_write, .at = 1, .len = 8, REFUSED(LW_BAD_LENGTH, 0, 16)},
    {"end data without a ticket", leave, .at = 1, REFUSED(LW_NO_TICKETS, 0, 0)},
    {"a query without a ticket", events, ANSWERS(3)},
};

/* Five leases at a time, and rebases behind several events. */
static const row SEVERAL[] = {
    {"host write", host_write, .at = LARGE, .len = 8, .bytes = 0x0102030405060708, DONE},
    {"data of A and B", enter, {{LW_COPY, A, 16, 0}, {LW_COPY, B, 16, 0}}, 2, ANSWERS(1)},
    {"all that it did", all_did, .count = 2, ANSWERS(2)},
    {"its first item alone", all_did, .count = 1, ANSWERS(1)},
    {"data of C and many bytes", enter, {{LW_COPY, C, 16, 0}, {LW_COPY, LARGE, LARGE_SIZE, 0}}, 2, ANSWERS(2)},
    {"data of 24 bytes", enter, {{LW_COPY, ODD, ODD_SIZE, 0}}, 1, ANSWERS(3)},
    {"all five blocks are used", used, ANSWERS(16 + 16 + 16 + 8192 + 32)},
    {"rebase of four events", rebase, ANSWERS(4)},
    {"what the last event did is not stored any more", did, .at = 0, REFUSED(LW_ABSENT, 0, 0)},
    {"so nothing is told of it", all_did, .count = 2, ANSWERS(0)},

    {"the first lease", lend, .region = 1, .at = A, .len = 16, ANSWERS(1)},
    {"the second lease", lend, .region = 1, .at = B + 8, .len = 8, ANSWERS(2)},
    {"the third lease, of many bytes", lend, .region = 2, .at = LARGE, .len = LARGE_SIZE, ANSWERS(3)},
    {"the fourth lease, in another region", lend, .region = 3, .at = C, .len = 16, ANSWERS(4)},
    {"the fifth lease", lend, .region = 3, .at = ODD + 8, .len = 16, ANSWERS(5)},
    {"rebase of five events", rebase, ANSWERS(5)},
    {"lease read of many bytes", lease_read, .at = 3, .len = LARGE_SIZE, ANSWERS(0x0102030405060708)},
    {"lease write of many bytes", lease_write, .at = 3, .len = LARGE_SIZE, .bytes = 0x1112131415161718, DONE},
    {"lease write of the last one", lease_write, .at = 5, .len = 16, .bytes = 0x2122232425262728, DONE},
    {"gather from the middle", gather, .at = 3, DONE},
    {"the second is out still", lease, .at = 2, ANSWERS(LEASE(2, 0, 2, 8, 8))},
    {"behind it the fourth is", lease, .at = 3, ANSWERS(LEASE(4, 0, 3, 0, 16))},
    {"behind that the fifth", lease, .at = 5, ANSWERS(LEASE(5, 0, 5, 8, 16))},
    {"gather it twice", gather, .at = 3, REFUSED(LW_NO_LEASE, 0, 3)},
    {"the last one stays", lease_read, .at = 5, .len = 16, ANSWERS(0x2122232425262728)},
    {"the sixth lease, of the same block", lend, .region = 2, .at = LARGE, .len = 16, ANSWERS(6)},
    {"it has the kernel's bytes", lease_read, .at = 6, .len = 16, ANSWERS(0x1112131415161718)},
    {"gather the last one", gather, .at = 6, DONE},
    {"gather the first one", gather, .at = 1, DONE},
    {"gather the fifth", gather, .at = 5, DONE},
    {"gather the second", gather, .at = 2, DONE},
    {"gather the fourth", gather, .at = 4, DONE},
    {"rebase of seven events", rebase, ANSWERS(7)},

    {"end data", leave, .at = 3, DONE},
    {"the host has the bytes of the fifth", host_read, .at = ODD + 8, .len = 16, ANSWERS(0x2122232425262728)},
    {"end data of many bytes", leave, .at = 2, DONE},
    {"the host has those of the third", host_read, .at = LARGE, .len = LARGE_SIZE, ANSWERS(0x1112131415161718)},
    {"end data of A and B", leave, .at = 1, DONE},
    {"nothing is used", used, ANSWERS(0)},
    {"rebase of three events", rebase, ANSWERS(3)},
};

/* A full trace on two devices, read back. */
static const row TRACE[] = {
    {"no event is stored", event, .at = 0, REFUSED(LW_ABSENT, 0, 0)},
    {"host write", host_write, .at = A, .len = 8, .bytes = 0x0102030405060708, DONE},
    {"data", enter, {{LW_COPY, A, 16, 0}, {LW_CREATE_ZERO, B, 16, C}}, 2, .device = 1, ANSWERS(1)},
    {"enter data", enter_data, {{LW_COPYIN, C, 16, 0}}, 1, .async = 3, DONE},
    {"step", step, .at = 3, ANSWERS(1)},
    {"wait for all queues", wait_for, .at = NO_QUEUE, .device = 1, ANSWERS(0)},
    {"update if_present", update, {{LW_DEVICE, C, 8, 0}}, 1, .async = 3, .option = 1, DONE},
    {"wait", wait_for, .at = 3, ANSWERS(1)},
    {"lend", lend, .region = 1, .at = A + 4, .len = 8, ANSWERS(1)},
    {"lease write", lease_write, .at = 1, .len = 8, .bytes = 0x1112131415161718, DONE},
    {"gather", gather, .at = 1, DONE},
    {"exit data finalize", exit_data, {{LW_COPYOUT, C, 16, 0}}, 1, .async = SYNC, .option = 1, DONE},
    {"end data", leave, .at = 1, DONE},

    {"the write", event, .at = 0, ANSWERS(EVENT(LW_WRITTEN, 0, 0, NO_QUEUE, 0, 0, 0, 0))},
    {"its section", event_section, .at = 0, ANSWERS(SECTION(A, 8, 8))},
    {"its bytes", event_bytes, .at = 0, .len = 8, ANSWERS(0x0102030405060708)},
    {"fewer of them", event_bytes, .at = 0, .len = 7, REFUSED(LW_BAD_LENGTH, 0, 8)},
    {"it has no item", event_item, .at = 0, .len = 0, REFUSED(LW_ABSENT, 0, 0)},
    {"the data construct", event, .at = 1, ANSWERS(EVENT(LW_ENTERED, 0, 1, NO_QUEUE, 1, 0, 0, 2))},
    {"its first item", event_item, .at = 1, .len = 0, ANSWERS(ITEM(LW_COPY, A, 16, 0))},
    {"its second item", event_item, .at = 1, .len = 1, ANSWERS(ITEM(LW_CREATE_ZERO, B, 16, C))},
    {"it has no third", event_item, .at = 1, .len = 2, REFUSED(LW_ABSENT, 0, 0)},
    {"it has no section", event_section, .at = 1, ANSWERS(0)},
    {"no bytes of it", event_bytes, .at = 1, .len = 0, DONE},
    {"a byte of it", event_bytes, .at = 1, .len = 1, REFUSED(LW_BAD_LENGTH, 0, 0)},
    {"the enter data", event, .at = 2, ANSWERS(EVENT(LW_ENTERED_DATA, 0, 0, 3, 0, 0, 0, 1))},
    {"its item", event_item, .at = 2, .len = 0, ANSWERS(ITEM(LW_COPYIN, C, 16, 0))},
    {"the step", event, .at = 3, ANSWERS(EVENT(LW_STEPPED, 0, 0, 3, 0, 0, 1, 0))},
    {"the wait for all", event, .at = 4, ANSWERS(EVENT(LW_WAITED, 0, 1, NO_QUEUE, 0, 0, 0, 0))},
    {"the update", event, .at = 5, ANSWERS(EVENT(LW_UPDATED, 1, 0, 3, 0, 0, 0, 1))},
    {"its item", event_item, .at = 5, .len = 0, ANSWERS(ITEM(LW_DEVICE, C, 8, 0))},
    {"the wait for one", event, .at = 6, ANSWERS(EVENT(LW_WAITED, 0, 0, 3, 0, 0, 0, 1))},
    {"the loan", event, .at = 7, ANSWERS(EVENT(LW_LENT_BLOCK, 0, 1, NO_QUEUE, 1, 1, 1, 0))},
    {"its section", event_section, .at = 7, ANSWERS(SECTION(A + 4, 8, 0))},
    {"the gather", event, .at = 8, ANSWERS(EVENT(LW_GATHERED, 0, 1, NO_QUEUE, 0, 1, 1, 0))},
    {"its bytes", event_bytes, .at = 8, .len = 8, ANSWERS(0x1112131415161718)},
    {"the exit data", event, .at = 9, ANSWERS(EVENT(LW_EXITED_DATA, 1, 0, NO_QUEUE, 0, 0, 0, 1))},
    {"its item", event_item, .at = 9, .len = 0, ANSWERS(ITEM(LW_COPYOUT, C, 16, 0))},
    {"the end", event, .at = 10, ANSWERS(EVENT(LW_EXITED, 0, 1, NO_QUEUE, 1, 0, 0, 2))},
    {"it names no item", event_item, .at = 10, .len = 0, REFUSED(LW_ABSENT, 0, 0)},
    {"no event behind it", event, .at = 11, REFUSED(LW_ABSENT, 0, 0)},
    {"nor far behind", event, .at = UINT64_MAX, REFUSED(LW_ABSENT, 0, 0)},
    {"nor an item there", event_item, .at = 11, .len = 0, REFUSED(LW_ABSENT, 0, 0)},
    {"nor bytes", event_bytes, .at = 11, .len = 0, REFUSED(LW_ABSENT, 0, 0)},

    {"rebase", rebase, ANSWERS(11)},
    {"none is stored then", event, .at = 0, REFUSED(LW_ABSENT, 0, 0)},
    {"host write of no bytes", host_write, .at = A, DONE},
    {"it is the first", event, .at = 0, ANSWERS(EVENT(LW_WRITTEN, 0, 0, NO_QUEUE, 0, 0, 0, 0))},
    {"reset", reset, DONE},
    {"no event was", events, ANSWERS(0)},
    {"the limits are as before", events_left, ANSWERS(1000)},
    {"host memory is zero", host_read, .at = A, .len = 8, ANSWERS(0)},
    {"data on its second device", enter, {{LW_COPY, A, 16, 0}}, 1, .device = 1, ANSWERS(1)},
};

/* A trace that stores no bytes. */
static const row COUNTED[] = {
    {"host write", host_write, .at = A, .len = 8, .bytes = 0x0102030405060708, DONE},
    {"its section", event_section, .at = 0, ANSWERS(SECTION(A, 8, 0))},
    {"its bytes are not stored", event_bytes, .at = 0, .len = 8, REFUSED(LW_BAD_LENGTH, 0, 0)},
    {"an array", array, .len = 8, ANSWERS(A)},
    {"reset", reset, DONE},
    {"no event is stored", event, .at = 0, REFUSED(LW_ABSENT, 0, 0)},
    {"an array at the same place", array, .len = 8, ANSWERS(A)},
};

/* Directives of each kind and writes, on two devices. Each is an event. */
static const row RECORDED[] = {
    {"host write", host_write, .at = A, .len = 16, .bytes = 0x0102030405060708, DONE},
    {"host write of a pointer to A", host_write, .at = C, .len = 8, .bytes = 0x0010000000000000, DONE},
    {"data", enter, {{LW_COPY, A, 16, 0}, {LW_COPY, C, 16, 0}}, 2, .device = 1, ANSWERS(1)},
    {"data of A and its pointer", enter, {{LW_PRESENT, A, 16, C}}, 1, .device = 1, ANSWERS(2)},
    {"enter data", enter_data, {{LW_COPYIN, A, 16, 0}, {LW_CREATE_ZERO, B, 16, 0}}, 2, .async = 3, DONE},
    {"step", step, .at = 3, ANSWERS(1)},
    {"host write over a part of A", host_write, .at = A + 4, .len = 8, .bytes = 0x1112131415161718, DONE},
    {"update async without a number", update, {{LW_DEVICE, A, 8, 0}}, 1, .async = NOVAL, DONE},
    {"update if_present", update, {{LW_SELF, C, 8, 0}}, 1, .async = SYNC, .option = 1, DONE},
    {"wait for all queues", wait_for, .at = NO_QUEUE, ANSWERS(1)},
    {"exit data", exit_data, {{LW_COPYOUT, B, 16, 0}}, 1, .async = SYNC, DONE},
    {"exit data finalize", exit_data, {{LW_COPYOUT, A, 16, 0}}, 1, .async = 5, .option = 1, DONE},
    {"end of the inner data", leave, .at = 2, DONE},
    {"wait", wait_for, .at = 5, ANSWERS(1)},
    {"data that stays open", enter, {{LW_CREATE, A, 16, 0}}, 1, ANSWERS(3)},
    {"attach", enter_data, {{LW_ATTACH, C, 0, 0}}, 1, .device = 1, .async = SYNC, DONE},
    {"an update that waits", update, {{LW_SELF, A, 8, 0}}, 1, .device = 1, .async = 7, DONE},

    {"all are events", events, ANSWERS(17)},
    {"the host has what the first device had", host_read, .at = A, .len = 8, ANSWERS(0x0102030411121314)},
    {"also behind the update", host_read, .at = A + 8, .len = 8, ANSWERS(0)},
};

enum { RECORDED_EVENTS = 17 };

/* ---- The driver ---- */

typedef struct scene {
    const char *name;
    lw_limits limits;
    const row *rows;
    size_t count;
} scene;

#define ROWS(rows) (rows), sizeof(rows) / sizeof *(rows)
#define LIMITS(...) {sizeof(lw_limits), LW_VERSION, __VA_ARGS__}

static const scene SCENES[] = {
    {"usual", LIMITS(HOST_SIZE, 64, 2, 1000, 2, 1, 1000, 0, 1), ROWS(USUAL)},
    {"usual, full traces", LIMITS(HOST_SIZE, 64, 2, 1000, 2, 1, 1000, 1, 1), ROWS(USUAL)},
    {"few events", LIMITS(HOST_SIZE, 64, 2, 3, 2, 1, 1, 0, 1), ROWS(FEW_EVENTS)},
    {"few events, full traces", LIMITS(HOST_SIZE, 64, 2, 3, 2, 1, 1, 1, 1), ROWS(FEW_EVENTS)},
    {"several leases", LIMITS(32768, 32768, 3, 1000, 2, 1, 1000, 0, 1), ROWS(SEVERAL)},
    {"several leases, full traces", LIMITS(32768, 32768, 3, 1000, 2, 1, 1000, 1, 1), ROWS(SEVERAL)},
    {"several devices", LIMITS(HOST_SIZE, 64, 2, 1000, 2, 1, 1000, 0, 4), ROWS(DEVICES)},
    {"a full trace", LIMITS(HOST_SIZE, 64, 2, 1000, 2, 4, 1000, 1, 2), ROWS(TRACE)},
    {"a counted trace", LIMITS(HOST_SIZE, 64, 2, 1000, 2, 1, 1000, 0, 1), ROWS(COUNTED)},
    {"recorded", LIMITS(HOST_SIZE, 64, 2, 1000, 2, 1, 1000, 1, 2), ROWS(RECORDED)},
    {"several devices, full traces", LIMITS(HOST_SIZE, 64, 2, 1000, 2, 1, 1000, 1, 4), ROWS(DEVICES)},
};

static unsigned wrong;
static size_t refused_growths;

static void check(bool holds, const char *where, const char *what)
{
    if (!holds) {
        printf("wrong: %s: %s\n", where, what);
        wrong++;
    }
}

/* The report of a table as a string. */
static void report_of(lw_table *table, char *text)
{
    uint64_t len = 0;
    lw_fault fault;

    check(lw_report(table, text, TEXT, &len, &fault) == LW_DONE, "report", "it is refused");
    check(text[len] == '\0' && strlen(text) == len, "report", "it does not end with a zero");
}

/* Whether two tables have the same. */
static bool is_same(lw_table *one, lw_table *other)
{
    uint64_t same = UNTOUCHED;
    lw_fault fault;

    check(lw_table_same(one, other, &same, &fault) == LW_DONE && fault.status == LW_DONE && same <= 1, "comparison",
          "it is refused");
    return same == 1;
}

/* The directive of a row as an event names it. The kind is none of a directive's where the row makes another call. */
static lw_stored_event directive_of(const row *row)
{
    static const struct {
        uint32_t (*make)(lw_table *table, const struct row *row, uint64_t *number, lw_fault *fault);
        uint32_t kind;
    } KINDS[] = {
        {enter, LW_ENTERED}, {leave, LW_EXITED},     {enter_data, LW_ENTERED_DATA}, {exit_data, LW_EXITED_DATA},
        {step, LW_STEPPED},  {wait_for, LW_WAITED}, {update, LW_UPDATED},
    };
    const bool is_numbered = row->make == wait_for || row->make == step;
    lw_stored_event asked = {.kind = LW_WRITTEN, .option = row->option, .device = row->device, .region = row->at};

    asked.queue = is_numbered ? row->at : row->async == SYNC ? NO_QUEUE : row->async == NOVAL ? 0 : (uint64_t)row->async;
    for (size_t i = 0; i < sizeof KINDS / sizeof *KINDS; i++) {
        if (KINDS[i].make == row->make) {
            asked.kind = KINDS[i].kind;
        }
    }
    return asked;
}

/* Whether directives are made by lw_do, and not by their own calls. */
static bool is_by_event;

/* Makes the call of a row, or has lw_do make it. That answers 1 where the call answers no number. */
static uint32_t call(lw_table *table, const row *row, uint64_t *number, lw_fault *fault)
{
    const lw_stored_event asked = directive_of(row);
    const bool is_numbered = row->make == enter || row->make == wait_for || row->make == step;
    uint64_t told = UNTOUCHED;
    uint32_t status;

    if (!is_by_event || asked.kind == LW_WRITTEN) {
        return row->make(table, row, number, fault);
    }
    status = lw_do(table, &asked, items_of(row), row->count, is_numbered ? number : &told, fault);
    check(is_numbered || told == (status == LW_DONE ? 1 : UNTOUCHED), "by its event", row->says);
    return status;
}

/* What a call answered. */
typedef struct answer {
    uint32_t status;
    lw_fault fault;
    uint64_t number;
    bool is_short; /* a growth of memory was refused */
} answer;

/* Makes the call of a row while the growth of a number is refused. */
static answer answer_of(lw_table *table, const row *row, size_t growth)
{
    answer answer = {.fault = {99, 99, 99}, .number = UNTOUCHED};

    refuse_growth(growth);
    answer.status = call(table, row, &answer.number, &answer.fault);
    answer.is_short = was_growth_refused();
    refuse_growth(0);
    return answer;
}

static bool is_memory(const answer *answer)
{
    return answer->is_short && answer->status == LW_MEMORY && answer->fault.status == LW_MEMORY &&
           answer->fault.item == 0 && answer->fault.value == 0 && answer->number == UNTOUCHED;
}

/* The answer is the one that the row tells. */
static bool is_told(const answer *answer, const row *row)
{
    return answer->status == row->status && answer->fault.status == row->status && answer->fault.item == row->item &&
           answer->fault.value == row->value && answer->number == row->number;
}

/* Judges the directive of a row with each growth refused in turn. It is told what the row tells, and nothing changes;
   of another call it is told that there is no such directive. */
static void judge(lw_table *table, const row *row, const char *before, const char *where)
{
    const lw_stored_event asked = directive_of(row);
    const bool is_asked = asked.kind != LW_WRITTEN;
    char after[TEXT];
    size_t growth = 0;
    answer answer;

    do {
        answer.fault = (lw_fault){99, 99, 99};
        answer.number = is_asked ? row->number : UNTOUCHED;
        refuse_growth(++growth);
        answer.status = lw_judge(table, &asked, items_of(row), row->count, &answer.fault);
        answer.is_short = was_growth_refused();
        refuse_growth(0);
        report_of(table, after);
        check(strcmp(before, after) == 0, where, "a directive that is judged changes the report");
        if (answer.status == LW_MEMORY && answer.is_short) {
            check(row->count > 1, "judged", "memory is wanted for less than two items");
            continue;
        }
        check(is_asked ? is_told(&answer, row) : answer.status == LW_ABSENT && answer.fault.status == LW_ABSENT,
              "judged", row->says);
    } while (answer.is_short);
    refused_growths += growth - 1;
}

/* Makes the call of a row with each of its growths refused in turn, until it is done or none is left to refuse. Short
   of memory it is LW_MEMORY, or what it is refused for in any case. */
static void make(lw_table *table, const row *row, const char *where)
{
    char before[TEXT];
    char after[TEXT];
    size_t growth = 0;
    answer answer;

    report_of(table, before);
    judge(table, row, before, where);
    do {
        answer = answer_of(table, row, ++growth);
        report_of(table, after);
        check(is_memory(&answer) || is_told(&answer, row), where, row->says);
        check(answer.status == LW_DONE || strcmp(before, after) == 0, where, "a refused call changes the report");
    } while (answer.is_short && answer.status != LW_DONE);
    refused_growths += growth - 1;
}

/* Each call is LW_ENDED on a handle that has no table. */
static void make_ended(lw_table *table, const row *row)
{
    const lw_stored_event asked = directive_of(row);
    uint64_t number = UNTOUCHED;
    lw_fault fault = {99, 99, 99};
    uint32_t status = call(table, row, &number, &fault);

    check(status == LW_ENDED && fault.status == LW_ENDED && fault.item == 0 && fault.value == 0 && number == UNTOUCHED,
          "without a table", row->says);
    check(lw_judge(table, &asked, items_of(row), row->count, &fault) == LW_ENDED && fault.status == LW_ENDED,
          "judged without a table", row->says);
}

/* Behind each front of a scene, each lease that is out is brought back, where there is a ticket for that. */
static void bring_back(const scene *scene)
{
    for (size_t count = 1; count <= scene->count; count++) {
        lw_table table = LW_NO_TABLE;
        lw_lent_lease lent;
        lw_fault fault;
        uint64_t number = UNTOUCHED;
        uint64_t from = 0;

        check(lw_table_new(&table, &scene->limits, &fault) == LW_DONE, scene->name, "no table");
        for (size_t i = 0; i < count; i++) {
            scene->rows[i].make(&table, &scene->rows[i], &number, &fault);
        }
        while (lw_lease(&table, from, &lent) == LW_DONE) {
            uint32_t status = lw_gather(&table, lent.lease, &fault);

            check(status == LW_DONE || status == LW_NO_TICKETS, scene->name, "a lease that is out is refused");
            from = lent.lease + 1;
        }
        lw_table_end(&table);
    }
}

static void play(const scene *scene)
{
    lw_table table = LW_NO_TABLE;
    lw_fault fault;

    for (size_t i = 0; i < scene->count; i++) {
        make_ended(&table, &scene->rows[i]);
    }
    check(lw_table_new(&table, &scene->limits, &fault) == LW_DONE, scene->name, "no table");
    for (size_t i = 0; i < scene->count; i++) {
        make(&table, &scene->rows[i], scene->name);
    }
    lw_table_end(&table);
    for (size_t i = 0; i < scene->count; i++) {
        make_ended(&table, &scene->rows[i]);
    }
    lw_table_end(&table);
}

/* ---- Events that are run ---- */

/* The trace of a table as lw_run takes it, and how many items and bytes stand before each event. */
typedef struct recording {
    lw_stored_event events[RECORDED_EVENTS + 1];
    lw_item items[ITEMS];
    uint8_t bytes[ITEMS];
    size_t items_before[RECORDED_EVENTS + 1];
    size_t bytes_before[RECORDED_EVENTS + 1];
} recording;

/* Makes the rows on a new table, and reads their trace. */
static void record(lw_table *table, const scene *scene, recording *recording)
{
    size_t items = 0, bytes = 0, n = 0;
    uint64_t number = UNTOUCHED;
    lw_fault fault;

    lw_table_new(table, &scene->limits, &fault);
    for (size_t i = 0; i < scene->count; i++) {
        scene->rows[i].make(table, &scene->rows[i], &number, &fault);
    }
    for (; n < RECORDED_EVENTS && lw_event(table, n, &recording->events[n]) == LW_DONE; n++) {
        for (uint64_t i = 0; lw_event_item(table, n, i, &recording->items[items]) == LW_DONE; i++) {
            items++;
        }
        lw_event_bytes(table, n, recording->bytes + bytes, recording->events[n].stored, &fault);
        bytes += recording->events[n].stored;
        recording->items_before[n + 1] = items;
        recording->bytes_before[n + 1] = bytes;
    }
    check(n == RECORDED_EVENTS && lw_event(table, n, &recording->events[n]) == LW_ABSENT, "run",
          "the trace has another length");
}

/* Runs what is recorded from an event on. */
static uint32_t run_from(lw_table *table, const recording *recording, uint64_t from, uint64_t *done, lw_fault *fault)
{
    const lw_item *items = recording->items + recording->items_before[from];
    const uint8_t *bytes = recording->bytes + recording->bytes_before[from];

    return lw_run(table, recording->events + from, RECORDED_EVENTS - from, items, bytes, done, fault);
}

/* Runs it on a new table with each growth refused in turn, and then what is left of it. The second table has what the
   first one has. */
static void check_runs(lw_table *first, const scene *scene, const recording *recording)
{
    bool is_short = true;

    for (size_t growth = 1; is_short; growth++) {
        lw_table table = LW_NO_TABLE;
        uint64_t done = UNTOUCHED, rest = UNTOUCHED;
        lw_fault fault;
        uint32_t status;

        lw_table_new(&table, &scene->limits, NULL);
        refuse_growth(growth);
        status = run_from(&table, recording, 0, &done, &fault);
        is_short = was_growth_refused();
        refuse_growth(0);
        check(status == (done == RECORDED_EVENTS ? LW_DONE : LW_MEMORY) && fault.status == status && fault.item == 0 &&
                  fault.value == 0, "run", "its status");
        check(is_short || done == RECORDED_EVENTS, "run", "it is refused with memory");
        check(run_from(&table, recording, done, &rest, NULL) == LW_DONE && done + rest == RECORDED_EVENTS, "run",
              "what is left is refused");
        check(is_same(first, &table), "run", "the tables differ");
        lw_table_end(&table);
        refused_growths += is_short;
    }
}

/* Runs it on a new table up to an event that is refused: as many were made as stand before that. */
static void check_stops(const scene *scene, const recording *recording, uint64_t at, lw_fault wanted)
{
    lw_table table = LW_NO_TABLE;
    uint64_t done = UNTOUCHED, number = UNTOUCHED;
    lw_fault fault;
    uint32_t status;

    lw_table_new(&table, &scene->limits, NULL);
    status = run_from(&table, recording, 0, &done, &fault);
    lw_events(&table, &number);
    check(status == wanted.status && fault.status == wanted.status && fault.item == wanted.item &&
              fault.value == wanted.value, "run to a wrong event", lw_status_name(wanted.status));
    check(done == at && number == at, "run to a wrong event", "it stops elsewhere");
    lw_table_end(&table);
}

/* What is no directive and no write, what the table refuses, and what has no events. */
static void check_wrong_runs(const scene *scene, const recording *right)
{
    static const uint32_t KINDS[] = {0, LW_LENT_BLOCK, LW_GATHERED, 11, UINT32_MAX};
    lw_table none = LW_NO_TABLE;
    recording wrong_one = *right;
    uint64_t done = UNTOUCHED;
    lw_fault fault = {99, 99, 99};

    for (size_t i = 0; i < sizeof KINDS / sizeof *KINDS; i++) {
        wrong_one.events[5].kind = KINDS[i];
        check_stops(scene, &wrong_one, 5, (lw_fault){.status = LW_ABSENT});
    }
    wrong_one.events[4].device = 2;
    check_stops(scene, &wrong_one, 4, (lw_fault){.status = LW_NO_DEVICE, .value = 2});
    wrong_one.items[4].clause = LW_DELETE;
    check_stops(scene, &wrong_one, 4, (lw_fault){.status = LW_BAD_CLAUSE, .item = 1});
    wrong_one.events[1].start = END - 7;
    check_stops(scene, &wrong_one, 1, (lw_fault){.status = LW_OUT_OF_HOST});
    check(lw_run(&none, right->events, 1, NULL, right->bytes, &done, &fault) == LW_ENDED && fault.status == LW_ENDED &&
              done == 0, "run", "without a table");
    check(lw_run(&none, NULL, 0, NULL, NULL, &done, &fault) == LW_ENDED && fault.status == LW_ENDED && done == 0, "run",
          "without a table and events");
}

/* ---- Copies ---- */

/* Makes the rows of a scene, each on the table and then on a copy that was made just before. Between both calls the two
   have the same where the row is refused, and not where a region is entered or exited; behind them they have. No copy
   is made while a lease is out. */
static void make_on_copies(const scene *scene)
{
    lw_table table = LW_NO_TABLE, copy = LW_NO_TABLE;

    lw_table_new(&table, &scene->limits, NULL);
    for (size_t i = 0; i < scene->count; i++) {
        const row *row = &scene->rows[i];
        const bool is_refused = row->status != LW_DONE;
        lw_lent_lease lent = {.block = 0};
        const uint32_t wanted = lw_lease(&table, 0, &lent) == LW_DONE ? LW_LENT : LW_DONE;
        lw_fault fault;
        answer first, second;

        lw_table_end(&copy);
        check(lw_table_copy(&table, &copy, &fault) == wanted && fault.status == wanted && fault.item == 0 &&
                  fault.value == lent.block, "copy", row->says);
        first = answer_of(&table, row, 0);
        if (wanted == LW_LENT) {
            continue;
        }
        if (is_refused || row->make == enter || row->make == leave) {
            check(is_same(&table, &copy) == is_refused, "copy that is behind", row->says);
        }
        second = answer_of(&copy, row, 0);
        check(is_told(&first, row) && is_told(&second, row) && is_same(&table, &copy), "call on a copy", row->says);
    }
    lw_table_end(&table);
    lw_table_end(&copy);
}

/* With each growth of a copy refused in turn, the handle keeps what it had. Then each of a comparison is refused. */
static void check_short_copies(lw_table *table)
{
    lw_table copy = LW_NO_TABLE, before = LW_NO_TABLE;
    uint64_t same = UNTOUCHED;
    lw_fault fault;
    bool is_short = true;

    lw_table_new(&copy, NULL, NULL);
    lw_table_new(&before, NULL, NULL);
    for (size_t growth = 1; is_short; growth++) {
        refuse_growth(growth);
        lw_table_copy(table, &copy, &fault);
        is_short = was_growth_refused();
        refuse_growth(0);
        check(fault.status == (is_short ? LW_MEMORY : LW_DONE) && is_same(&copy, is_short ? &before : table), "copy",
              "a growth is refused");
        refused_growths += is_short;
    }
    is_short = true;
    for (size_t growth = 1; is_short; growth++) {
        refuse_growth(growth);
        lw_table_same(table, &copy, &same, &fault);
        is_short = was_growth_refused();
        refuse_growth(0);
        check(fault.status == (is_short ? LW_MEMORY : LW_DONE) && same == (is_short ? UNTOUCHED : 1), "comparison",
              "a growth is refused");
        refused_growths += is_short;
    }
    check(!is_same(&before, &copy), "comparison", "other limits are not seen");
    lw_table_end(&copy);
    lw_table_end(&before);
}

/* Without a table nothing is copied or compared, and what the other handle has stays. */
static void check_no_copies(lw_table *table)
{
    lw_table none = LW_NO_TABLE, copy = LW_NO_TABLE;
    uint64_t same = UNTOUCHED;
    lw_fault fault;

    lw_table_new(&copy, NULL, NULL);
    check(lw_table_copy(table, &copy, NULL) == LW_DONE && lw_table_copy(&none, &copy, &fault) == LW_ENDED &&
              fault.status == LW_ENDED && lw_table_copy(&none, &copy, NULL) == LW_ENDED && is_same(table, &copy),
          "copy", "of no table");
    check(lw_table_same(table, &none, &same, &fault) == LW_ENDED && fault.status == LW_ENDED &&
              lw_table_same(&none, table, &same, &fault) == LW_ENDED && fault.status == LW_ENDED &&
              lw_table_same(&none, table, &same, NULL) == LW_ENDED && same == UNTOUCHED,
          "comparison", "with no table");
    lw_table_end(&copy);
}

/* A table with regions, attached pointers, copies that wait and a full trace, also behind a base of them. */
static void check_copies(lw_table *table)
{
    uint64_t folded;

    check_short_copies(table);
    check(lw_rebase(table, &folded, NULL) == LW_DONE && lw_host_write(table, A, "byte", 4, NULL) == LW_DONE, "copy",
          "rebase");
    check_short_copies(table);
    check_no_copies(table);
}

static void check_recorded(void)
{
    static const scene scene = {"recorded", LIMITS(HOST_SIZE, 64, 2, 1000, 2, 1, 1000, 1, 2), ROWS(RECORDED)};
    static recording recording;
    lw_table first = LW_NO_TABLE;

    record(&first, &scene, &recording);
    check_runs(&first, &scene, &recording);
    check_wrong_runs(&scene, &recording);
    check_copies(&first);
    lw_table_end(&first);
}

/* ---- Tables without memory ---- */

/* With each growth of a new table refused in turn, what the handle had before stays: a table, or none. */
static void check_short_tables(bool is_full)
{
    lw_table kept = LW_NO_TABLE;
    lw_table none = LW_NO_TABLE;
    lw_limits limits = LW_LIMITS;
    lw_fault fault;
    uint64_t number;
    size_t growth = 0;

    limits.full = is_full;
    check(lw_table_new(&kept, &limits, &fault) == LW_DONE, "table", "it is refused");
    for (;;) {
        refuse_growth(++growth);
        lw_table_new(&none, &limits, &fault);
        if (!was_growth_refused()) {
            break;
        }
        check(fault.status == LW_MEMORY && lw_events(&none, &number) == LW_ENDED, "table", "it needs no memory");
        refuse_growth(growth);
        lw_table_new(&kept, &limits, &fault);
        check(fault.status == LW_MEMORY && lw_events(&kept, &number) == LW_DONE, "table", "it ends for want of memory");
    }
    refuse_growth(0);
    check(fault.status == LW_DONE && lw_events(&none, &number) == LW_DONE, "table", "it is not there with memory");
    refused_growths += growth - 1;
    lw_table_end(&kept);
    lw_table_end(&none);
}

/* ---- Tables that end ---- */

/* A table that is ended, or in whose place another one comes, gives back all of its memory, with its leases. */
static void check_ends(bool is_full)
{
    static const lw_item item = {.clause = LW_COPYIN, .start = A, .len = 16};
    lw_table table = LW_NO_TABLE;
    lw_limits limits = LW_LIMITS;
    lw_fault fault;
    uint64_t number;
    size_t held = 0;

    limits.full = is_full;
    for (int i = 0; i < 100; i++) {
        lw_table_new(&table, &limits, &fault);
        lw_enter(&table, 0, &item, 1, &number, &fault);
        lw_lend(&table, number, A, 16, &number, &fault);
        held = i == 0 ? blocks_held() : held;
        check(fault.status == LW_DONE && blocks_held() == held, "table", "the one before it has memory still");
    }
    lw_table_end(&table);
    check(blocks_held() == 0, "table", "it has memory behind its end");
}

/* ---- Limits and texts ---- */

/* The bounds of a limit, and what it is by default. */
static const struct {
    const char *name;
    size_t place;
    uint64_t least;
    uint64_t greatest;
} BOUNDS[] = {
    {"host", offsetof(lw_limits, host), 16, 67108864},
    {"device", offsetof(lw_limits, device), 16, 67108864},
    {"regions", offsetof(lw_limits, regions), 1, 65536},
    {"tickets", offsetof(lw_limits, tickets), 1, UINT64_C(1) << 40},
    {"counter_max", offsetof(lw_limits, counter_max), 1, UINT64_C(4294967295)},
    {"queue_cap", offsetof(lw_limits, queue_cap), 1, 4096},
    {"trace_cap", offsetof(lw_limits, trace_cap), 1, 16777216},
    {"full", offsetof(lw_limits, full), 0, 1},
    {"devices", offsetof(lw_limits, devices), 1, 4},
};

/* A table tells its limits: the one at a place, and what the others are by default. */
static void check_told(lw_table *table, size_t place, uint64_t limit)
{
    lw_limits wanted = LW_LIMITS, told = LW_LIMITS;

    wanted.host = wanted.device = 65536;
    wanted.regions = 64;
    wanted.tickets = UINT64_C(1) << 40;
    wanted.counter_max = UINT64_C(4294967295);
    wanted.queue_cap = 256;
    wanted.trace_cap = 262144;
    wanted.devices = 1;
    memcpy((uint8_t *)&wanted + place, &limit, sizeof limit);
    check(lw_limits_of(table, &told) == LW_DONE && memcmp(&told, &wanted, sizeof told) == 0, "limits", "they are told");
}

/* What a table with one limit other than by default answers. A table that it had stays where it is refused. */
static uint32_t status_with(size_t place, uint64_t limit)
{
    lw_table table = LW_NO_TABLE;
    lw_limits limits = LW_LIMITS;
    lw_fault fault;
    uint64_t number = 0;
    uint32_t status;

    lw_table_new(&table, &limits, &fault);
    memcpy((uint8_t *)&limits + place, &limit, sizeof limit);
    status = lw_table_new(&table, &limits, &fault);
    check(fault.status == status && lw_events(&table, &number) == LW_DONE, "table", "the handle has no table");
    if (status == LW_DONE && limit != 0) {
        check_told(&table, place, limit);
    }
    lw_table_end(&table);
    return status;
}

/* As by default a table has 65,536 bytes of host memory and of one device, and 64 regions. */
static void check_default(const lw_limits *limits, const char *where)
{
    lw_table table = LW_NO_TABLE;
    uint64_t region, start;

    check(lw_table_new(&table, limits, NULL) == LW_DONE, where, "no table");
    check(lw_array(&table, 65536, &start, NULL) == LW_DONE && lw_array(&table, 1, &start, NULL) == LW_OUT_OF_HOST,
          where, "host memory");
    check(lw_enter(&table, 1, NULL, 0, &region, NULL) == LW_NO_DEVICE, where, "devices");
    for (int i = 0; i < 64; i++) {
        check(lw_enter(&table, 0, NULL, 0, &region, NULL) == LW_DONE, where, "regions");
    }
    check(lw_enter(&table, 0, NULL, 0, &region, NULL) == LW_NO_ALLOWANCE, where, "more regions");
    lw_table_end(&table);
}

/* Limits of another header than the library knows are told by name. */
static void check_versions(void)
{
    const lw_limits whole = LW_LIMITS;
    const struct {
        uint32_t size, version;
    } wrong_ones[] = {
        {0, 0}, {whole.size, 0}, {whole.size, 1999}, {0, LW_VERSION}, {whole.size - 8, LW_VERSION},
        {whole.size + 8, LW_VERSION}, {UINT32_MAX, UINT32_MAX}, {whole.size, 3000}, {whole.size, 3007},
        {whole.size - 8, 3000}, {whole.size, 1002005}, {whole.size, UINT32_MAX},
    };
    char text[LW_FAULT_TEXT_SIZE];

    for (size_t i = 0; i < sizeof wrong_ones / sizeof *wrong_ones; i++) {
        lw_table table = LW_NO_TABLE;
        lw_limits limits = {.size = wrong_ones[i].size, .version = wrong_ones[i].version};
        lw_fault fault;

        check(lw_table_new(&table, &limits, &fault) == LW_BAD_VERSION && fault.value == LW_VERSION, "versions",
              "wrong limits are taken");
        check(strcmp(lw_fault_text(&fault, text, sizeof text, NULL), "36 BadVersion library 2005") == 0, "versions",
              "the text");
        check(lw_table_new(&table, &limits, NULL) == LW_BAD_VERSION && table.at == NULL, "versions", "without a fault");
        check(lw_limits_of(&table, &limits) == LW_BAD_VERSION, "versions", "limits are told in wrong ones");
    }
}

static void check_limits(void)
{
    const lw_limits limits = LW_LIMITS;

    check_default(&limits, "limits that are begun");
    check_default(NULL, "no limits");
    for (size_t i = 0; i < sizeof BOUNDS / sizeof *BOUNDS; i++) {
        check(status_with(BOUNDS[i].place, 0) == LW_DONE, "as by default", BOUNDS[i].name);
        check(status_with(BOUNDS[i].place, BOUNDS[i].least) == LW_DONE, "least", BOUNDS[i].name);
        check(status_with(BOUNDS[i].place, BOUNDS[i].greatest) == LW_DONE, "greatest", BOUNDS[i].name);
        check(status_with(BOUNDS[i].place, BOUNDS[i].greatest + 1) == LW_BAD_CONFIG, "above", BOUNDS[i].name);
        check(status_with(BOUNDS[i].place, UINT64_MAX) == LW_BAD_CONFIG, "far above", BOUNDS[i].name);
    }
    for (uint64_t size = 1; size < 40; size++) {
        const uint32_t wanted = size % 16 == 0 ? LW_DONE : LW_BAD_CONFIG;

        check(status_with(offsetof(lw_limits, host), size) == wanted, "no multiple of 16", "host");
        check(status_with(offsetof(lw_limits, device), size) == wanted, "no multiple of 16", "device");
    }
}

/* What each refusal says. */
static const struct {
    lw_fault told;
    const char *text;
} TEXTS[] = {
    {{LW_MEMORY, 0, 0}, "1 Memory"},
    {{LW_BAD_CONFIG, 0, 0}, "2 BadConfig"},
    {{LW_NO_TICKETS, 0, 0}, "3 NoTickets left 0"},
    {{LW_NO_ALLOWANCE, 0, 0}, "4 NoAllowance left 0"},
    {{LW_TOO_MANY_ITEMS, 0, 65}, "5 TooManyItems n 65"},
    {{LW_TRACE_FULL, 0, 262144}, "6 TraceFull len 262144"},
    {{LW_OUT_OF_HOST, 1, 0}, "7 OutOfHost item 1"},
    {{LW_MISALIGNED, 2, 0}, "8 Misaligned item 2"},
    {{LW_NO_QUEUE, 0, 16}, "9 NoQueue q 16"},
    {{LW_PARTLY_PRESENT, 3, 0}, "10 PartlyPresent item 3"},
    {{LW_NOT_PRESENT, 4, 0}, "11 NotPresent item 4"},
    {{LW_COUNTER_FULL, 5, 0}, "12 CounterFull item 5"},
    {{LW_LENT, 0, 6}, "13 Lent block 6"},
    {{LW_DEVICE_FULL, 7, 32}, "14 DeviceFull item 7 need 32"},
    {{LW_QUEUE_FULL, 0, 15}, "15 QueueFull q 15"},
    {{LW_NO_REGION, 0, 8}, "16 NoRegion number 8"},
    {{LW_NO_LEASE, 0, 9}, "17 NoLease serial 9"},
    {{LW_ENDED, 0, 0}, "32 Ended"},
    {{LW_BAD_CLAUSE, 63, 0}, "33 BadClause item 63"},
    {{LW_BAD_LENGTH, 0, 20}, "34 BadLength len 20"},
    {{LW_NO_DEVICE, 0, 4}, "22 NoDevice device 4"},
    {{LW_SCRIPT, LW_LINE_TOO_LONG, 1}, "19 Script line 1 kind TooLong"},
    {{LW_SCRIPT, LW_LINE_NOT_TEXT, 2}, "19 Script line 2 kind NotText"},
    {{LW_SCRIPT, LW_LINE_SYNTAX, 3}, "19 Script line 3 kind Syntax"},
    {{LW_SCRIPT, LW_LINE_NUMBER, 4}, "19 Script line 4 kind Number"},
    {{LW_SCRIPT, LW_LINE_UNKNOWN_NAME, 5}, "19 Script line 5 kind UnknownName"},
    {{LW_SCRIPT, LW_LINE_NAME_TAKEN, 6}, "19 Script line 6 kind NameTaken"},
    {{LW_SCRIPT, LW_LINE_HOST_FULL, 7}, "19 Script line 7 kind HostFull"},
    {{LW_SCRIPT, LW_LINE_NO_OPEN_REGION, 8}, "19 Script line 8 kind NoOpenRegion"},
    {{LW_SCRIPT, LW_LINE_UNCLOSED, UINT64_MAX}, "19 Script line 18446744073709551615 kind Unclosed"},
    {{LW_ABSENT, 0, 0}, "35 Absent"},
    {{LW_BAD_VERSION, 0, 2000}, "36 BadVersion library 2000"},
    {{LW_DEVICE_FULL, UINT64_MAX, UINT64_MAX},
     "14 DeviceFull item 18446744073709551615 need 18446744073709551615"},
};

/* Statuses that are no refusal. */
static const uint32_t NO_REFUSALS[] = {18, 20, 21, 23, 31, 37, UINT32_MAX};

/* A text that is written whole, cut, and not at all, with its length in each case. */
static void check_text(const lw_fault *told, const char *text)
{
    const size_t wanted = strlen(text);
    char buffer[LW_FAULT_TEXT_SIZE + 1];

    for (size_t size = 0; size < sizeof buffer; size++) {
        const size_t shown = size > wanted ? wanted : size != 0 ? size - 1 : 0;
        uint64_t len = UNTOUCHED;

        memset(buffer, '.', sizeof buffer);
        check(lw_fault_text(told, buffer, size, &len) == buffer && len == wanted, "text", text);
        check(memcmp(buffer, text, shown) == 0 && (size == 0 || buffer[shown] == '\0'), "text that is cut", text);
        check(buffer[size != 0 ? shown + 1 : 0] == '.', "text past its end", text);
        check(lw_fault_text(told, buffer, size, NULL) == buffer, "text without its length", text);
    }
    check(lw_fault_text(told, NULL, 0, NULL) == NULL, "text without a buffer", text);
}

/* The name stands behind the number in the text, before a space or the end. */
static void check_name(const lw_fault *told, const char *text)
{
    const char *name = lw_status_name(told->status);
    char number[16], buffer[LW_FAULT_TEXT_SIZE];
    int len = snprintf(number, sizeof number, "%" PRIu32 " ", told->status);

    check(strncmp(text, number, len) == 0 && name[0] != '\0' && strncmp(text + len, name, strlen(name)) == 0 &&
              strchr(" ", text[len + strlen(name)]) != NULL,
          "name", text);
    refuse_growth(1);
    check(strcmp(lw_fault_text(told, buffer, sizeof buffer, NULL), name) == 0 && was_growth_refused(),
          "text without memory", text);
    refuse_growth(0);
}

static void check_texts(void)
{
    for (size_t i = 0; i < sizeof TEXTS / sizeof *TEXTS; i++) {
        check_text(&TEXTS[i].told, TEXTS[i].text);
        check_name(&TEXTS[i].told, TEXTS[i].text);
    }
    check_text(&(lw_fault){LW_DONE, 0, 0}, "Done");
    check_text(&(lw_fault){LW_SCRIPT, 0, 1}, "Script");
    check_text(&(lw_fault){LW_SCRIPT, LW_LINE_UNCLOSED + 1, 1}, "Script");
    for (size_t i = 0; i < sizeof NO_REFUSALS / sizeof *NO_REFUSALS; i++) {
        check_text(&(lw_fault){NO_REFUSALS[i], 1, 2}, "");
    }
}

/* The longest text of all refusals with the greatest numbers just fits where the header says so. */
static void check_longest_text(void)
{
    uint64_t longest = 0;

    for (uint32_t status = 0; status < 64; status++) {
        const lw_fault told = {status, UINT64_MAX, UINT64_MAX};
        uint64_t len = 0;

        lw_fault_text(&told, NULL, 0, &len);
        longest = len > longest ? len : longest;
    }
    check(longest + 1 == LW_FAULT_TEXT_SIZE, "text", "the longest has another length");
}

/* Scripts, what they print, and how they end. */
static const struct {
    const char *script, *printed;
    lw_fault told;
} SCRIPTS[] = {
    {"", "", {LW_DONE, 0, 0}},
    {"array a 4\nenter data copyin(a)\npresent a", "yes\n", {LW_DONE, 0, 0}},
    {"array a 4\nupdate self(a)\nshow a\n", "line 2: refused 11 NotPresent item 0\n00000000\n", {LW_DONE, 0, 0}},
    {"array a 4\nwrite a[1] 0102\ndata copy(a)\nkernel add 3 a\nend data\nshow a\n", "03040503\n", {LW_DONE, 0, 0}},
    {"array a 4\nshow a\nshow b\nshow a\n", "00000000\n", {LW_SCRIPT, LW_LINE_UNKNOWN_NAME, 3}},
    {"array a 4\n\narray a 4\n", "", {LW_SCRIPT, LW_LINE_NAME_TAKEN, 3}},
    {"array a\n", "", {LW_SCRIPT, LW_LINE_SYNTAX, 1}},
    {"array a 0\n", "", {LW_SCRIPT, LW_LINE_NUMBER, 1}},
    {"array a 65536\narray b 1\n", "", {LW_SCRIPT, LW_LINE_HOST_FULL, 2}},
    {"end data\n", "", {LW_SCRIPT, LW_LINE_NO_OPEN_REGION, 1}},
    {"array a 4\ndata copy(a)\n", "", {LW_SCRIPT, LW_LINE_UNCLOSED, 3}},
    {"wait\n\001", "", {LW_SCRIPT, LW_LINE_NOT_TEXT, 2}},
};

/* Scripts on tables with few tickets, counters or events, what they print, and how they end. */
static const struct {
    uint64_t tickets, counters, trace;
    const char *script, *printed;
    lw_fault told;
} SMALL[] = {
    {8, 1, 8, "array a 20\nenter data copyin(a)\nenter data copyin(a)\n", "line 3: refused 12 CounterFull item 0\n",
     {LW_DONE, 0, 0}},
    /* No ticket to bring the block back: it stays lent, and the other one does not. */
    {4, 8, 8,
     "array a 4\narray b 4\nwrite a[0] 01020304\nwrite b[0] 05060708\ndata copyin(a, b)\nkernel add 1 b\nreport\n"
     "peek a\npeek b\npresent b\nkernel add 1 b\n",
     "line 6: refused 3 NoTickets left 0\nhost 64 device 64 used 32\n"
     "map 0x1000 4 at 0x100000000 structured 1 dynamic 0\n"
     "map 0x1010 4 at 0x100000010 structured 1 dynamic 0 lent\nregions 1 events 4\n01020304\nnone\nyes\n"
     "line 11: refused 3 NoTickets left 0\n",
     {LW_SCRIPT, LW_LINE_UNCLOSED, 12}},
    /* Nor room for it in the trace. A refused `end data` leaves its region open. */
    {8, 8, 2, "array a 4\ndata create(a)\nkernel number 1 a\npeek a[1:2]\nreport\nend data\n",
     "line 3: refused 6 TraceFull len 2\nnone\nhost 64 device 64 used 16\n"
     "map 0x1000 4 at 0x100000000 structured 1 dynamic 0 lent\nregions 1 events 2\nline 6: refused 6 TraceFull len 2\n",
     {LW_SCRIPT, LW_LINE_UNCLOSED, 7}},
};

/* A script with a buffer of each length: its text and how it ends, or how long a buffer it wants. */
static void check_script(const char *script, const char *printed, const lw_fault *told)
{
    const size_t wanted = strlen(printed);
    char buffer[128];

    for (size_t size = 0; size < wanted + 3; size++) {
        const bool fits = size > wanted;
        uint64_t len = UNTOUCHED;
        lw_fault fault;
        uint32_t status;

        memset(buffer, '.', sizeof buffer);
        status = lw_script(NULL, script, strlen(script), size != 0 ? buffer : NULL, size, &len, &fault);
        check(len == wanted && status == fault.status && status == (fits ? told->status : LW_BAD_LENGTH), "script",
              script);
        check(fits ? fault.item == told->item && fault.value == told->value : fault.value == wanted + 1,
              "why a script ends", script);
        check(fits ? strcmp(buffer, printed) == 0 && buffer[wanted + 1] == '.' : buffer[0] == '.', "printed", script);
        check(lw_script(NULL, script, strlen(script), buffer, size, NULL, NULL) == status, "script, nothing told",
              script);
    }
}

/* Each growth is refused in turn: then nothing is written, or all is, where the growth was for room ahead. */
static void check_script_without_memory(const char *script, const char *printed)
{
    char buffer[128];
    size_t growth = 0, refused = 0;

    for (bool is_short = true; is_short;) {
        uint64_t len = UNTOUCHED;
        uint32_t status;

        memset(buffer, '.', sizeof buffer);
        refuse_growth(++growth);
        status = lw_script(NULL, script, strlen(script), buffer, sizeof buffer, &len, NULL);
        is_short = was_growth_refused();
        refuse_growth(0);
        check(status == LW_MEMORY ? is_short && buffer[0] == '.' && len == UNTOUCHED
                                  : status == LW_DONE && len == strlen(printed) && strcmp(buffer, printed) == 0,
              "script without memory", script);
        refused += status == LW_MEMORY;
    }
    check(refused > 20, "script without memory", "few growths were refused");
}

static void check_scripts(void)
{
    const lw_limits unknown = {.size = 8, .version = LW_VERSION};
    lw_limits limits = LW_LIMITS;
    char line[4098], buffer[512];
    lw_fault fault;

    for (size_t i = 0; i < sizeof SCRIPTS / sizeof *SCRIPTS; i++) {
        check_script(SCRIPTS[i].script, SCRIPTS[i].printed, &SCRIPTS[i].told);
    }
    check_script_without_memory(SCRIPTS[3].script, SCRIPTS[3].printed);
    memset(line, ' ', sizeof line);
    line[4097] = '\0';
    check_script(line, "", &(lw_fault){LW_SCRIPT, LW_LINE_TOO_LONG, 1});
    check_script(line + 1, "", &(lw_fault){LW_DONE, 0, 0});
    limits.host = 32;
    limits.devices = 2;
    check(lw_script(&limits, "array a 33", 10, buffer, sizeof buffer, NULL, &fault) == LW_SCRIPT &&
              fault.item == LW_LINE_HOST_FULL &&
              lw_script(&limits, "set device_num(1)\nset device_num(2)", 35, buffer, sizeof buffer, NULL, NULL) ==
                  LW_DONE &&
              strcmp(buffer, "line 2: refused 22 NoDevice device 2\n") == 0 &&
              lw_script(NULL, NULL, 0, buffer, 1, NULL, NULL) == LW_DONE && buffer[0] == '\0',
          "script", "the limits are not taken");
    for (size_t i = 0; i < sizeof SMALL / sizeof *SMALL; i++) {
        lw_limits small = LW_LIMITS;

        small.host = small.device = 64;
        small.regions = small.queue_cap = 1;
        small.tickets = SMALL[i].tickets;
        small.counter_max = SMALL[i].counters;
        small.trace_cap = SMALL[i].trace;
        lw_script(&small, SMALL[i].script, strlen(SMALL[i].script), buffer, sizeof buffer, NULL, &fault);
        check(strcmp(buffer, SMALL[i].printed) == 0 && fault.status == SMALL[i].told.status &&
                  fault.item == SMALL[i].told.item && fault.value == SMALL[i].told.value,
              "small table", SMALL[i].script);
    }
    limits.host = 33;
    check(lw_script(&limits, "", 0, buffer, sizeof buffer, NULL, NULL) == LW_BAD_CONFIG &&
              lw_script(&unknown, "", 0, buffer, sizeof buffer, NULL, NULL) == LW_BAD_VERSION,
          "script", "wrong limits are taken");
}

/* Without a place for a fault each call answers the same. */
static void check_no_fault(void)
{
    static const lw_item item = {.clause = LW_COPY, .start = A, .len = 16};
    lw_table table = LW_NO_TABLE;
    uint64_t number = 0;
    uint8_t bytes[16] = {0};

    check(lw_rebase(&table, &number, NULL) == LW_ENDED && lw_report(&table, NULL, 0, NULL, NULL) == LW_ENDED,
          "no fault", "without a table");
    check(lw_table_new(&table, NULL, NULL) == LW_DONE && lw_enter(&table, 0, &item, 1, &number, NULL) == LW_DONE &&
              lw_exit(&table, 9, NULL) == LW_NO_REGION && lw_host_write(&table, A, bytes, 16, NULL) == LW_DONE &&
              lw_host_read(&table, 0, bytes, 16, NULL) == LW_OUT_OF_HOST &&
              lw_device_read(&table, 0, A, bytes, 16, NULL) == LW_DONE &&
              lw_enter_data(&table, 0, &item, 1, LW_ASYNC_SYNC, NULL) == LW_BAD_CLAUSE &&
              lw_exit_data(&table, 0, NULL, 0, 0, LW_ASYNC_NOVAL, NULL) == LW_DONE &&
              lw_update(&table, 0, NULL, 0, 0, lw_queue(16), NULL) == LW_NO_QUEUE &&
              lw_judge(&table, &(lw_stored_event){.kind = LW_WAITED, .queue = 16}, NULL, 0, NULL) == LW_NO_QUEUE &&
              lw_do(&table, &(lw_stored_event){.kind = LW_WRITTEN}, NULL, 0, &number, NULL) == LW_ABSENT &&
              lw_run(&table, &(lw_stored_event){.kind = LW_STEPPED, .queue = 16}, 1, NULL, NULL, &number, NULL) ==
                  LW_NO_QUEUE &&
              lw_wait(&table, 0, 16, &number, NULL) == LW_NO_QUEUE && lw_step(&table, 0, 0, &number, NULL) == LW_DONE &&
              lw_lend(&table, 1, A, 16, &number, NULL) == LW_DONE &&
              lw_lease_read(&table, 1, bytes, 15, NULL) == LW_BAD_LENGTH &&
              lw_lease_write(&table, 1, bytes, 16, NULL) == LW_DONE && lw_gather(&table, 1, NULL) == LW_DONE &&
              lw_report(&table, NULL, 0, NULL, NULL) == LW_BAD_LENGTH,
          "no fault", "with a table");
    lw_table_end(&table);
}

int main(void)
{
    for (size_t i = 0; i < sizeof SCENES / sizeof *SCENES; i++) {
        play(&SCENES[i]);
        bring_back(&SCENES[i]);
        make_on_copies(&SCENES[i]);
        is_by_event = true;
        play(&SCENES[i]);
        is_by_event = false;
    }
    check_recorded();
    check_short_tables(false);
    check_short_tables(true);
    check_ends(false);
    check_ends(true);
    check_limits();
    check_texts();
    check_longest_text();
    check_scripts();
    check_versions();
    check_no_fault();
    check(lw_version() == LW_VERSION, "version", "the header has another one");
    check(refused_growths != 0, "memory", "no growth was refused");
    check(blocks_held() == 0, "memory", "a block is lost");
    printf(wrong == 0 ? "each call answers as it has to\n" : "%u answers are wrong\n", wrong);
    return wrong == 0 ? EXIT_SUCCESS : EXIT_FAILURE;
}
