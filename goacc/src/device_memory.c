/* The routines of device addresses and of memory of the device (OpenACC 3.3, section 3.2), as GCC 12's openacc.h
   declares them. */
#include <stdlib.h>
#include <string.h>

#include "inner.h"

LWA_EXPORT void *acc_deviceptr(void *at)
{
    void *found = at;
    lwa_block *block;

    LWA_PASS(lwa_in_runtime, acc_deviceptr, at)
    lwa_take("acc_deviceptr", LWA_FROM);
    if (lwa_is_for_table()) {
        block = lwa_meets((uintptr_t)at, 1);
        found = NULL;
        if (lwa_is_of_program(block)) {
            found = (void *)lwa_device_of(block, (uintptr_t)at);
        }
    }
    LWA_LEAVE(found = (void *)lwa_answer((uintptr_t)found, (uintptr_t)LWA_NEXT(acc_deviceptr)(at)));
    return found;
}

LWA_EXPORT void *acc_hostptr(void *address)
{
    void *found = address;
    uintptr_t at;

    LWA_PASS(lwa_in_runtime, acc_hostptr, address)
    lwa_take("acc_hostptr", LWA_FROM);
    if (lwa_is_for_table()) {
        found = lwa_is_of_program(lwa_on_device((uintptr_t)address, &at)) ? (void *)at : NULL;
    }
    LWA_LEAVE(found = (void *)lwa_answer((uintptr_t)found, (uintptr_t)LWA_NEXT(acc_hostptr)(address)));
    return found;
}

/* A directive of one item on the memory of acc_malloc. No: there is no room on the device. */
static bool direct(lwa_way way, uint32_t clause, void *memory, size_t len)
{
    lwa_directive directive = {.way = way, .queue = LW_NO_QUEUE_GIVEN, .may_be_full = true,
                               .option = way == LWA_EXIT_DATA};

    directive.device = (uintptr_t)memory;
    lwa_add_item(&directive.items, clause, (uintptr_t)memory, len);
    return lwa_direct(&directive);
}

/* The memory is this process's own, so the program has no array there. */
LWA_EXPORT void *acc_malloc(size_t len)
{
    void *memory;

    LWA_PASS(lwa_in_runtime || (lwa_shadow && !lwa_is_for_table()), acc_malloc, len)
    if (!lwa_is_for_table()) {
        lwa_check_first("acc_malloc", LWA_FROM);
        return malloc(len);
    }
    lwa_take("acc_malloc", LWA_FROM);
    memory = lwa_shadow ? LWA_NEXT(acc_malloc)(len)
           : len != 0 && len <= lwa_limits.device ? aligned_alloc(64, (len + 63) / 64 * 64) : NULL;
    if (memory != NULL && !direct(LWA_ENTER_DATA, LW_CREATE, memory, len)) {
        if (lwa_shadow) {
            lwa_unserved("there is no room for %zu bytes more: LAMWIEST_DEVICE is %zu", len, (size_t)lwa_limits.device);
        }
        free(memory);
        memory = NULL;
    }
    LWA_LEAVE((void)0);
    return memory;
}

static bool has_part(const lwa_block *block, uintptr_t device, size_t len)
{
    const lwa_block *part = block->parts;

    while (part != NULL && (!part->mapped || part->device + part->len <= device || device + len <= part->device)) {
        part = part->next;
    }
    return part != NULL;
}

/* Its counters end, but for that of a region, which may hold what was mapped of it. */
static void free_block(void *address)
{
    lw_counters_of counters = {0, 0};
    uintptr_t at;
    const lwa_block *block = lwa_on_device((uintptr_t)address, &at);

    if (block == NULL || lwa_is_of_program(block) || block->device != (uintptr_t)address
        || has_part(block, block->device, block->len)) {
        lwa_unserved("%p is not an address that acc_malloc gave, or some of it is mapped", address);
    }
    lw_counters(lwa_table(), 0, block->told, block->len, &counters);
    if (counters.structured != 0) {
        lwa_unserved("a data region holds the memory at %p", address);
    }
    direct(LWA_EXIT_DATA, LW_DELETE, address, block->len);
    if (!lwa_shadow) {
        free(address);
    }
}

LWA_EXPORT void acc_free(void *address)
{
    uintptr_t at;

    LWA_PASS(lwa_in_runtime || (lwa_shadow && !lwa_is_for_table()), acc_free, address)
    lwa_take("acc_free", LWA_FROM);
    if (!lwa_is_for_table() && lwa_on_device((uintptr_t)address, &at) == NULL) {
        free(address);
    } else if (address != NULL) {
        free_block(address);
    }
    LWA_LEAVE(LWA_NEXT(acc_free)(address));
}

/* The bytes that a block of the device has, and no kernel; and whether the table does not know them. */
static void *bytes_at(uintptr_t address, size_t len, bool *open)
{
    lwa_block *block;
    uintptr_t at;

    do {
        block = lwa_on_device(address, &at);
        if (block == NULL || !lwa_has(block, at, len)) {
            lwa_unserved("the %zu bytes at %#zx are in no one block of the device", len, (size_t)address);
        }
    } while (lwa_is_lent(block->root->kernels != 0 ? LW_LENT : LW_DONE));
    *open = block->root->open || block->waiting != 0;
    lwa_watch_block(block);
    return block->bytes + (at - block->at);
}

/* Copies bytes to the device, or from it. What waits in the queue is made before. The program's bytes are not looked at
   before: to ask the system for them takes longer than to copy a few. */
static void copy(const char *name, void *from, void *to, void *at, size_t len, int async, bool out)
{
    const uintptr_t device = (uintptr_t)(out ? at : to), host = (uintptr_t)(out ? to : at);
    bool open = false;

    lwa_take(name, from);
    if (lwa_is_for_table() && lwa_queue(async) != LW_NO_QUEUE_GIVEN) {
        lwa_wait(lwa_queue(async));
    }
    if (len != 0) {
        if (lwa_is_for_table()) {
            *(out ? &at : &to) = bytes_at(device, len, &open);
        }
        if (lwa_shadow && out && lwa_is_for_table()) {
            lwa_expect((uintptr_t)to, len, open ? NULL : at);
        } else if (!lwa_shadow || lwa_is_for_table()) {
            memmove(to, at, len);
        }
        if (lwa_is_for_table()) {
            LWA_CHECK(lwa_behind_moved(host, device, len, out));
        }
    }
}

/* behind: what makes the runtime copy at once, too. */
#define COPY(name, parameters, arguments, async, out, behind) \
    LWA_EXPORT void name parameters \
    { \
        LWA_PASS(lwa_in_runtime, name, LWA_LIST arguments) \
        copy(#name, LWA_FROM, to, at, len, async, out); \
        LWA_LEAVE((LWA_NEXT(name) arguments, behind)); \
    }
#define COPIES(name, out) \
    COPY(name, (void *to, void *at, size_t len), (to, at, len), acc_async_sync, out, (void)0) \
    COPY(name##_async, (void *to, void *at, size_t len, int async), (to, at, len, async), async, out, \
         LWA_NEXT(acc_wait)(async))

COPIES(acc_memcpy_to_device, false)
COPIES(acc_memcpy_from_device, true)

/* Some of a block of acc_malloc is mapped to the program's bytes, or is so no more. The counters stay. */
LWA_EXPORT void acc_map_data(void *at, void *address, size_t len)
{
    lwa_block *block;
    uintptr_t start;

    LWA_PASS(lwa_in_runtime, acc_map_data, at, address, len)
    lwa_take("acc_map_data", LWA_FROM);
    if (lwa_is_for_table()) {
        block = lwa_on_device((uintptr_t)address, &start);
        if (len == 0 || block == NULL || lwa_is_of_program(block) || !lwa_has(block, start, len)
            || has_part(block, start, len)) {
            lwa_unserved("the %zu bytes at %p are not what acc_malloc gave, or are mapped already", len, address);
        }
        if (at == NULL || lwa_meets((uintptr_t)at, len) != NULL) {
            lwa_unserved("some of the %zu bytes at %p are mapped already, or it is a null pointer", len, at);
        }
        lwa_map_part(block, (uintptr_t)at, len, start);
        lwa_watch_block(lwa_meets((uintptr_t)at, len));
    }
    LWA_LEAVE(LWA_NEXT(acc_map_data)(at, address, len));
}

LWA_EXPORT void acc_unmap_data(void *at)
{
    lwa_block *block;

    LWA_PASS(lwa_in_runtime, acc_unmap_data, at)
    lwa_take("acc_unmap_data", LWA_FROM);
    if (lwa_is_for_table()) {
        block = lwa_meets((uintptr_t)at, 1);
        if (block == NULL || !block->part || block->at != (uintptr_t)at) {
            lwa_unserved("%p is not an address that acc_map_data has mapped", at);
        }
        lwa_watch_block(block);
        lwa_ended(block);
    }
    LWA_LEAVE(LWA_NEXT(acc_unmap_data)(at));
}
