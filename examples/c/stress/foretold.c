/* What is told of a directive before it is made, and of a region once it is entered. */
#include "stress.h"

void judge(run *run, lw_stored_event asked, const lw_item *items, size_t count)
{
    uint64_t before = 0;
    uint64_t after = 0;
    uint32_t status;

    lw_events(&run->table, &before);
    status = lw_judge(&run->table, &asked, items, count, &run->judged);
    lw_events(&run->table, &after);
    if (status != run->judged.status || before != after) {
        fail(run, "a directive that is judged has another fault, or is an event", status);
    }
    run->is_judged = true;
}

void want_judged(run *run, const lw_fault *fault)
{
    if (run->is_judged && (fault->status != run->judged.status || fault->item != run->judged.item ||
                           fault->value != run->judged.value)) {
        fail(run, "a directive answers otherwise than it was judged", fault->status);
    }
    run->is_judged = false;
}

/* What an item of a region holds is the item, the block that it counted, and the pointer that it attached. */
static bool is_held(const lw_held_item *held, const lw_item *item, const lw_item_did *did)
{
    return held->item.clause == item->clause && held->item.start == item->start && held->item.len == item->len &&
           held->item.pointer == item->pointer && held->block == did->block && held->pointer == did->pointer &&
           held->holder == did->holder;
}

void want_held(run *run, uint64_t region, const lw_item *items, size_t count)
{
    lw_held_item held;
    lw_item_did did;

    for (size_t i = 0; i < count; i++) {
        if (lw_held(&run->table, region, i, &held) != LW_DONE || lw_did(&run->table, i, &did) != LW_DONE ||
            !is_held(&held, &items[i], &did)) {
            fail(run, "a region holds something else", 0);
        }
    }
    if (lw_held(&run->table, region, count, &held) != LW_ABSENT) {
        fail(run, "a region holds more", 0);
    }
}
