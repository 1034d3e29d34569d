/*
 * Pointers that are attached (OpenACC 3.3, section 2.6.8), which each block keeps by rising address.
 *
 * The table attaches a pointer at the target that the pointer's bytes in its host memory hold, a table address there.
 * So before an item that attaches, the target's table address is written. What a kernel has left in the pointer is told
 * before, since the table compares it.
 */
#include <string.h>

#include "inner.h"

size_t lwa_first_pointer(const lwa_block *block, uintptr_t at)
{
    size_t low = 0, high = block->pointer_count;

    while (low < high) {
        const size_t middle = low + (high - low) / 2;

        if (block->pointers[middle].at + LWA_POINTER > at) {
            high = middle;
        } else {
            low = middle + 1;
        }
    }
    return low;
}

static lwa_pointer *find_pointer(const lwa_block *block, uintptr_t at)
{
    const size_t i = lwa_first_pointer(block, at);

    return i < block->pointer_count && block->pointers[i].at == at ? &block->pointers[i] : NULL;
}

static lwa_pointer *keep_pointer(lwa_block *block, uintptr_t at)
{
    const size_t i = lwa_first_pointer(block, at);

    if (find_pointer(block, at) == NULL) {
        block->pointers = lwa_grown(block->pointers, block->pointer_count, &block->pointer_room, sizeof(lwa_pointer));
        memmove(block->pointers + i + 1, block->pointers + i, (block->pointer_count++ - i) * sizeof(lwa_pointer));
        block->pointers[i] = (lwa_pointer){.at = at};
    }
    return &block->pointers[i];
}

static void drop_pointer(lwa_block *block, uintptr_t at)
{
    lwa_pointer *p = find_pointer(block, at);

    if (p != NULL) {
        memmove(p, p + 1, (size_t)(block->pointers + --block->pointer_count - p) * sizeof *p);
    }
}

static uintptr_t value_at(uintptr_t at)
{
    uintptr_t value;

    memcpy(&value, (const void *)at, LWA_POINTER);
    return value;
}

/* The table address of bytes that are mapped, or are in the section of an item, which may map them; or 0. */
static uint64_t told_of(const lwa_item *item, uintptr_t at, size_t len)
{
    const lwa_block *block = lwa_inside(at, len);

    if (block != NULL) {
        return block->told + (at - block->at);
    }
    return at - item->at < item->told.len && len <= item->told.len - (at - item->at)
        ? item->told.start + (at - item->at) : 0;
}

static uintptr_t pointer_of(const lwa_item *item)
{
    return lwa_is_pointer(item) ? item->at : item->pointer;
}

/* One that is mapped nowhere is told as such, and one that is no memory is outside of the table's. */
uint64_t lwa_told_pointer(const lwa_item *item)
{
    const uintptr_t at = pointer_of(item);
    const uint64_t told = told_of(item, at, LWA_POINTER);

    if (!lwa_is_memory(at, LWA_POINTER)) {
        return lwa_outside() + at % LWA_POINTER;
    }
    return told != 0 ? told : LWA_NOWHERE + at % LWA_POINTER;
}

static void write_target(uint64_t told, uint64_t target)
{
    uint8_t bytes[LWA_POINTER];
    lw_fault fault;

    memcpy(bytes, &target, LWA_POINTER);
    lwa_room();
    lwa_must(lw_host_write(lwa_table(), told, bytes, LWA_POINTER, &fault), &fault);
}

/* Tells the table whether a kernel has left another value in an attached pointer. */
static void tell_left(const lwa_block *block, lwa_pointer *p)
{
    const bool other = value_at((uintptr_t)block->bytes + (p->at - block->at)) != p->device;

    if (other != p->other && block->root->kernels == 0) {
        lwa_write_on_device(block, p->at, other ? 0 : p->place);
        p->other = other;
    }
}

void lwa_aim(const lwa_item *item)
{
    const uintptr_t at = pointer_of(item);
    const uint64_t told = at != 0 ? told_of(item, at, LWA_POINTER) : 0;
    lwa_block *block = told != 0 ? lwa_inside(at, LWA_POINTER) : NULL;
    lwa_pointer *p = block != NULL ? find_pointer(block, at) : NULL;

    if (p != NULL) {
        tell_left(block, p);
    }
    if (told != 0 && lwa_is_memory(at, LWA_POINTER)) {
        lwa_script_point(item, at, value_at(at) + item->bias);
        write_target(told, told_of(item, value_at(at) + item->bias, 1));
    }
}

/* One that is aimed at the same place again may have another value there: it is told how far it points before that. */
void lwa_aimed(const lwa_item *item)
{
    const uintptr_t at = pointer_of(item);
    lwa_block *block = item->did.aim != 0 ? lwa_inside(at, LWA_POINTER) : NULL, *target;
    lwa_pointer *p;

    if (block == NULL) {
        return;
    }
    if (item->did.aim == LW_AIMED || item->did.aim == LW_AIMED_AGAIN) {
        target = lwa_meets(value_at(at) + item->bias, 1);
        p = keep_pointer(block, at);
        p->place = item->did.aim == LW_AIMED ? item->did.target : p->place;
        p->other = false;
        p->device = lwa_device_of(target, value_at(at));
        memcpy(block->bytes + (at - block->at), &p->device, LWA_POINTER);
    } else if (item->did.times == 0) {
        drop_pointer(block, at);
        lwa_copy(block, at, LWA_POINTER, false);
    }
}

void lwa_aimed_late(const lwa_item *item)
{
    const uintptr_t at = pointer_of(item);
    const lwa_block *block = item->did.aim != 0 ? lwa_inside(at, LWA_POINTER) : NULL;

    if (block != NULL && find_pointer(block, at) != NULL) {
        lwa_aimed(item);
    }
}
