/* What gcc passes to an entry point, as items of clauses: for each map an address, a size, and a kind. */
#include <inttypes.h>
#include <stdio.h>
#include <string.h>

#include "inner.h"
#include "kinds.h"

void lwa_add_item(lwa_items *items, uint32_t clause, uintptr_t at, size_t len)
{
    items->at = lwa_grown(items->at, items->count, &items->room, sizeof *items->at);
    items->at[items->count] = (lwa_item){.clause = clause, .at = at, .len = len};
    items->count++;
}

static unsigned kind_of(const lwa_maps *maps, size_t i)
{
    return maps->kinds[i] & 0xff;
}

/* The clause of a kind that a data or compute construct has, or 0. */
static uint32_t clause_of_data(unsigned kind)
{
    switch (kind) {
    case KIND_CREATE:
    case KIND_NEW_CREATE:
    case KIND_RESIDENT:
    case KIND_EMPTY: return LW_CREATE;
    case KIND_COPYIN:
    case KIND_UPDATE_DEVICE: return LW_COPYIN;
    case KIND_COPYOUT:
    case KIND_UPDATE_SELF: return LW_COPYOUT;
    case KIND_COPY:
    case KIND_COPY_SCALAR: return LW_COPY;
    case KIND_PRESENT: return LW_PRESENT;
    case KIND_NO_CREATE: return LW_NO_CREATE;
    default: return 0;
    }
}

/* The clause of a kind, or 0 where it is none of the directive's. */
static uint32_t clause_of(unsigned kind, lwa_way way)
{
    const uint32_t of_data = clause_of_data(kind);

    switch (way) {
    case LWA_DATA:
    case LWA_END_DATA: return of_data;
    case LWA_ENTER_DATA: return of_data == LW_COPYIN || of_data == LW_CREATE ? of_data : 0;
    case LWA_EXIT_DATA: return kind == KIND_COPYOUT || kind == KIND_UPDATE_SELF ? LW_COPYOUT
                             : kind == KIND_DELETE || kind == KIND_DELETE_ALL || kind == KIND_EMPTY
                            || kind == KIND_EMPTY_DELETE_ALL ? LW_DELETE : 0;
    case LWA_UPDATE: return kind == KIND_UPDATE_DEVICE || kind == KIND_COPYIN ? LW_DEVICE
                          : kind == KIND_UPDATE_SELF || kind == KIND_COPYOUT || kind == KIND_EMPTY ? LW_SELF : 0;
    }
    return 0;
}

/* Whether a kind says finalize of exit data, or if_present of update. */
static bool says_option(unsigned kind, lwa_way way)
{
    switch (way) {
    case LWA_EXIT_DATA: return kind == KIND_DELETE_ALL || kind == KIND_UPDATE_SELF || kind == KIND_DETACH_ALL
                            || kind == KIND_EMPTY_DELETE_ALL;
    case LWA_UPDATE: return kind == KIND_COPYIN || kind == KIND_COPYOUT;
    default: return false;
    }
}

bool lwa_is_entry(const lwa_maps *maps)
{
    for (size_t i = 0; i < maps->count; i++) {
        const unsigned kind = kind_of(maps, i);

        if (kind == KIND_ATTACH || clause_of(kind, LWA_ENTER_DATA) != 0) {
            return true;
        }
        if (kind == KIND_DETACH || kind == KIND_DETACH_ALL || clause_of(kind, LWA_EXIT_DATA) != 0) {
            return false;
        }
    }
    return true;
}

/* A map of a pointer: of the item before it, whose section it points to, or a clause of its own. */
static void add_pointer(lwa_items *items, uintptr_t at, size_t bias, bool leave)
{
    lwa_item *last = items->count != 0 ? &items->at[items->count - 1] : NULL;
    uintptr_t value = 0;

    if (at == 0) {
        return;
    }
    if (lwa_is_memory(at, LWA_POINTER)) {
        memcpy(&value, (const void *)at, LWA_POINTER);
    }
    if (last != NULL && last->pointer == 0 && last->clause != LW_ATTACH && last->clause != LW_DETACH && last->len != 0
        && value + bias == last->at) {
        last->pointer = at;
    } else {
        lwa_add_item(items, leave ? LW_DETACH : LW_ATTACH, at, 0);
        last = &items->at[items->count - 1];
    }
    last->bias = (intptr_t)bias;
}

/* A descriptor of Fortran begins with the pointer to the array before it, of which the next map tells how far it points
   before it. The device has a copy of it with that pointer. */
static void add_descriptor(lwa_items *items, const lwa_maps *maps, size_t i, lwa_way way)
{
    const bool told = i + 1 < maps->count && kind_of(maps, i + 1) == KIND_POINTER;
    lwa_item *item;

    if (way != LWA_UPDATE && maps->at[i] != NULL) {
        lwa_add_item(items, way == LWA_EXIT_DATA ? LW_DELETE : LW_COPYIN, (uintptr_t)maps->at[i], maps->sizes[i]);
        item = &items->at[items->count - 1];
        item->pointer = item->at;
        item->bias = told ? (intptr_t)maps->sizes[i + 1] : 0;
    }
}

/* Adds the item of one map, where it is one. Nothing is done with a null pointer. */
static void add_map(lwa_items *items, const lwa_maps *maps, size_t i, lwa_way way)
{
    const unsigned kind = kind_of(maps, i);
    const uintptr_t at = (uintptr_t)maps->at[i];
    const bool empty = at == 0 || kind == KIND_EMPTY || kind == KIND_EMPTY_DELETE_ALL;

    switch (kind) {
    case KIND_POINTER:
    case KIND_DEVICE_POINTER:
    case KIND_MEMBERS:
    case KIND_MEMBER_POINTER:
    case KIND_USE_DEVICE:
    case KIND_USE_DEVICE_IF_PRESENT:
        return;
    case KIND_DESCRIPTOR:
        add_descriptor(items, maps, i, way);
        return;
    case KIND_ATTACH:
    case KIND_DETACH:
    case KIND_DETACH_ALL:
        add_pointer(items, at, maps->sizes[i], way == LWA_EXIT_DATA);
        return;
    default:
        break;
    }
    if (clause_of(kind, way) == 0) {
        lwa_unserved("map %zu has the kind %#x, which is not served", i, kind);
    }
    lwa_add_item(items, clause_of(kind, way), at, empty ? 0 : maps->sizes[i]);
}

void lwa_read_maps(const lwa_maps *maps, lwa_way way, lwa_directive *directive)
{
    *directive = (lwa_directive){.way = way, .queue = LW_NO_QUEUE_GIVEN};
    directive->items.at = lwa_piece(maps->count * sizeof(lwa_item));
    directive->items.room = maps->count;
    for (size_t i = 0; i < maps->count; i++) {
        directive->option |= says_option(kind_of(maps, i), way);
        add_map(&directive->items, maps, i, way);
    }
}

/* ---- Items as texts ---- */

void lwa_section_text(uintptr_t at, size_t len, char text[LWA_NAME])
{
    if (!lwa_variable_at(at, len, text)) {
        snprintf(text, LWA_NAME, "%#" PRIxPTR ":%zu", at, len);
    }
}

static void pointer_text(uintptr_t at, char text[LWA_NAME])
{
    if (!lwa_variable_at(at, LWA_POINTER, text)) {
        snprintf(text, LWA_NAME, "%#" PRIxPTR, at);
    }
}

void lwa_item_text(const lwa_item *item, char text[LWA_ITEM])
{
    char section[LWA_NAME], pointer[LWA_NAME] = "";

    if (lwa_is_pointer(item)) {
        pointer_text(item->at, section);
    } else {
        lwa_section_text(item->at, item->len, section);
    }
    if (item->pointer != 0) {
        pointer_text(item->pointer, pointer);
    }
    snprintf(text, LWA_ITEM, "%s(%s%s%s)", lwa_clause_name(item->clause), section, item->pointer != 0 ? " via " : "",
             pointer);
}
