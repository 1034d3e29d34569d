/* What a call that is done leaves in the stored trace. */
#include "stress.h"
#include <string.h>

static void want_item(run *run, uint64_t place, uint64_t i, const lw_item *wanted)
{
    lw_item named;
    uint32_t status = lw_event_item(&run->table, place, i, &named);

    if (status != LW_DONE || named.clause != wanted->clause || named.start != wanted->start ||
        named.len != wanted->len || named.pointer != wanted->pointer) {
        fail(run, "an event names another item", status);
    }
}

static void want_bytes_of(run *run, uint64_t place, uint64_t len, const void *wanted)
{
    static uint8_t bytes[BYTES_MAX];
    uint32_t status = lw_event_bytes(&run->table, place, bytes, len, NULL);

    if (status != LW_DONE || (len != 0 && memcmp(bytes, wanted, len) != 0)) {
        fail(run, "an event has other bytes", status);
    }
    status = lw_event_bytes(&run->table, place, bytes, len + 1, NULL);
    if (status != LW_BAD_LENGTH) {
        fail(run, "an event has more bytes", status);
    }
}

void want_event(run *run, lw_stored_event wanted, const lw_item *items, const void *bytes)
{
    lw_stored_event told;
    lw_item item;
    uint64_t events = 0;

    lw_events(&run->table, &events);
    if (lw_event(&run->table, events, &told) != LW_ABSENT || lw_event(&run->table, events - 1, &told) != LW_DONE) {
        fail(run, "the trace has another length", 0);
    }
    wanted.block = told.block;
    wanted.stored = run->is_full ? wanted.stored : 0;
    if (memcmp(&told, &wanted, sizeof told) != 0) {
        fail(run, "the trace has another event", told.kind);
    }
    for (uint64_t i = 0; items != NULL && i < told.count; i++) {
        want_item(run, events - 1, i, &items[i]);
    }
    if (lw_event_item(&run->table, events - 1, items != NULL ? told.count : 0, &item) != LW_ABSENT) {
        fail(run, "an event names more items", 0);
    }
    want_bytes_of(run, events - 1, told.stored, bytes);
}
