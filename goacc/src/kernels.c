/*
 * Kernels run on the host, one gang of one worker, with the lock free.
 *
 * The blocks of a kernel's maps are lent before it, and brought back behind it: what else needs one waits so long.
 * Kernels that run at a time share what is lent, and the last one brings it back. The compiled function finds the bytes
 * at their device addresses, which stay as they are between kernels.
 *
 * Nobody meets a loan as long as no other thread calls. So the table is told of it then, or at once where the log or a
 * script has it; and not at all where the kernel has ended before.
 */
#include <string.h>

#include "inner.h"
#include "kinds.h"

/* ---- Loans ---- */

/* The loans of each device that the table is not told of. */
static lwa_block *untold[LWA_DEVICES];

static void tell_loan(lwa_block *block, uint64_t region)
{
    lw_fault fault;

    lwa_script_lent(block);
    lwa_room();
    lwa_must(lw_lend(lwa_table(), region, block->told, block->len, &block->lease, &fault), &fault);
    lwa_log_loan("lent", block);
}

static void put_off(lwa_block *block, uint64_t region)
{
    block->region = region;
    block->loan = &untold[lwa_on];
    block->next_loan = *block->loan;
    if (block->next_loan != NULL) {
        block->next_loan->loan = &block->next_loan;
    }
    *block->loan = block;
}

static void forget_loan(lwa_block *block)
{
    *block->loan = block->next_loan;
    if (block->next_loan != NULL) {
        block->next_loan->loan = block->loan;
    }
    block->loan = NULL;
}

void lwa_tell_loans(void)
{
    while (untold[lwa_on] != NULL) {
        lwa_block *block = untold[lwa_on];

        forget_loan(block);
        tell_loan(block, block->region);
    }
}

static void lend(lwa_block *block, uint64_t region)
{
    block->open |= lwa_shadow;
    if (block->kernels++ != 0) {
        return;
    }
    if (lwa_logged || lwa_has_script()) {
        tell_loan(block, region);
    } else {
        put_off(block, region);
    }
}

static void bring_back(lwa_block *block)
{
    lw_fault fault;

    if (block->kernels == 0 || --block->kernels != 0) {
        return;
    }
    if (block->loan != NULL) {
        forget_loan(block);
        return;
    }
    lwa_script_gathered(block);
    lwa_room();
    lwa_must(lw_gather(lwa_table(), block->lease, &fault), &fault);
    lwa_log_loan("gathered", block);
}

static void gather(lwa_block *block)
{
    block->kernels = block->kernels != 0;
    bring_back(block);
}

void lwa_gather_all(void)
{
    lwa_each_block(gather);
}

/* ---- What a kernel gets ---- */

/* The block that has a section. One of length 0 counts: such is a pointer to what is present that no clause names. */
static lwa_block *block_of(const void *at, size_t len)
{
    return at != NULL ? lwa_inside((uintptr_t)at, len != 0 ? len : 1) : NULL;
}

/* The address that the kernel has in place of one of the program: the device's, or its own where it is not mapped. */
static void *found_or_own(const lwa_block *block, void *at)
{
    return block != NULL ? (void *)lwa_device_of(block, (uintptr_t)at) : at;
}

/* Where a structure would begin on the device, by those of its members that are mapped. */
static void *structure_address(const lwa_maps *maps, size_t i)
{
    const uintptr_t at = (uintptr_t)maps->at[i];
    uintptr_t found = 0;

    for (size_t member = i + 1; member <= i + maps->sizes[i]; member++) {
        const lwa_block *block = block_of(maps->at[member], maps->sizes[member]);

        if (block != NULL && found != 0 && found != lwa_device_of(block, at)) {
            lwa_unserved("map %zu is of a structure whose members lie apart on the device", i);
        }
        found = block != NULL ? lwa_device_of(block, at) : found;
    }
    return (void *)(found != 0 ? found : at);
}

/* The value of a kernel's own pointer, which may point to the one before it. */
static void *own_pointer(const lwa_maps *maps, size_t i, void **slots)
{
    char *value;

    memcpy(&value, maps->at[i], sizeof value);
    if (value != NULL && i != 0 && maps->at[i - 1] == value && (maps->kinds[i - 1] & 0xff) == KIND_POINTER
        && block_of(value, 1) == NULL) {
        return &slots[i - 1];
    }
    value += maps->sizes[i];
    return (char *)found_or_own(block_of(value, 1), value) - maps->sizes[i];
}

/* What the compiled function gets for a map, of which a block has the first byte, or none. slots: pointers of the
   kernel's own, for the maps that are of one. */
static void *device_address(const lwa_maps *maps, size_t i, const lwa_block *block, void **slots)
{
    if (maps->at[i] == NULL) {
        return NULL;
    }
    switch (maps->kinds[i] & 0xff) {
    case KIND_DEVICE_POINTER:
        memcpy(&slots[i], maps->at[i], sizeof slots[i]);
        return &slots[i];
    case KIND_POINTER:
        slots[i] = own_pointer(maps, i, slots);
        return &slots[i];
    case KIND_MEMBERS:
        return structure_address(maps, i);
    default:
        return found_or_own(block != NULL && lwa_has(block, (uintptr_t)maps->at[i], maps->sizes[i]) ? block : NULL,
                            maps->at[i]);
    }
}

/* ---- Kernels ---- */

/* Each map has an address that the kernel gets, a pointer of the kernel's own, and the block that is lent. One block may
   stand there several times, and is brought back as often. Items stand in the order of their maps. */
void lwa_kernel(void (*run)(void *), void *given, const lwa_maps *maps, const lwa_region *region)
{
    const lwa_items *items = &region->directive.items;
    void **device = lwa_piece(3 * maps->count * sizeof *device), **slots = device + maps->count;
    lwa_block **blocks = (lwa_block **)(slots + maps->count);
    size_t count = 0;

    for (size_t i = 0, next = 0; i < maps->count && !lwa_has_refused(); i++) {
        const lwa_item *item = &items->at[next];
        const bool is_item = next < items->count && item->at == (uintptr_t)maps->at[i];
        lwa_block *block = is_item && item->block != NULL ? item->block : block_of(maps->at[i], 1);

        next += is_item;
        device[i] = given != NULL ? NULL : device_address(maps, i, block, slots);
        if (block != NULL) {
            blocks[count++] = block->root;
            LWA_CHECK(lwa_check_kernel(block, (uintptr_t)maps->at[i], maps->sizes[i]));
        }
    }
    for (size_t i = 0; i < count; i++) {
        lend(blocks[i], items->at[0].region);
    }
    lwa_kernel_starts();
    lwa_run_free(run, given != NULL ? given : device, true);
    lwa_kernel_ended();
    LWA_CHECK(lwa_shadow ? (void)0 : lwa_behind_kernel(true));
    for (size_t i = 0; i < count; i++) {
        bring_back(blocks[i]);
    }
    lwa_tell_loans();
    rattle_dealloc(device);
}

/* In a region of no item, since a loan is made in one. */
void lwa_write_on_device(const lwa_block *block, uintptr_t at, uint64_t value)
{
    lwa_directive none = {.way = LWA_DATA};
    lwa_region *region = lwa_enter(&none);
    lwa_block pointer = *block;
    lw_fault fault;

    pointer.told += at - block->at;
    pointer.place = lwa_place_of(block, at);
    pointer.bytes += at - block->at;
    pointer.at = at;
    pointer.len = LWA_POINTER;
    pointer.kernels = 1;
    tell_loan(&pointer, region->directive.items.at[0].region);
    lwa_must(lw_lease_write(lwa_table(), pointer.lease, (const uint8_t *)&value, LWA_POINTER, &fault), &fault);
    bring_back(&pointer);
    lwa_exit(region);
}
