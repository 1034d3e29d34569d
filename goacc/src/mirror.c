/*
 * Bytes between the program and the device, and the copies that wait. The table decides each copy; here it is made.
 */
#define _GNU_SOURCE
#include <stdlib.h>
#include <string.h>
#include <sys/mman.h>
#include <unistd.h>

#include "inner.h"

typedef struct waiting {
    lwa_block *block;
    uintptr_t at;
    size_t len;
    bool out;
    uint8_t *put; /* of a copy in, in shadow mode: the bytes when it was put */
    void *from;   /* the call that has put it */
} waiting;

/* The copies of each device's queues that wait, in the order in which they were put. */
static struct {
    waiting *list;
    size_t first, end, room;
} all[LWA_DEVICES][LWA_QUEUES];

#define OWN all[lwa_on]

/* msync tells of pages that are mapped nowhere, and does nothing to the others. What it told is so until the lock is
   free. */
bool lwa_is_memory(uintptr_t at, size_t len)
{
    static uintptr_t page, known_from, known_until;
    static uint64_t turn;
    uintptr_t from, until;

    if (page == 0) {
        page = (uintptr_t)sysconf(_SC_PAGESIZE);
    }
    from = at / page * page;
    if (at + len < at || from == 0) {
        return false;
    }
    until = (at + len + page - 1) / page * page;
    if (turn == lwa_turn && known_from <= from && until <= known_until) {
        return true;
    }
    if (msync((void *)from, until - from, MS_ASYNC) != 0) {
        return false;
    }
    turn = lwa_turn;
    known_from = from;
    known_until = until;
    return true;
}

static void move(const lwa_block *block, uintptr_t at, size_t len, bool out)
{
    uint8_t *there = block->bytes + (at - block->at);

    LWA_CHECK(lwa_behind_copied(block, at, len, out));
    if (lwa_shadow && out) {
        lwa_expect(at, len, block->root->open || block->root->given || block->meets ? NULL : there);
        return;
    }
    if (lwa_shadow) {
        lwa_read_expected(block, at, len, there);
        return;
    }
    memcpy(out ? (void *)at : there, out ? there : (void *)at, len);
}

/* The runtime may copy an attached pointer too. */
static void pass_over(lwa_pointer *pointer, bool out)
{
    if (out) {
        lwa_expect(pointer->at, LWA_POINTER, NULL);
    } else {
        pointer->open = true;
    }
}

void lwa_copy(const lwa_block *block, uintptr_t at, size_t len, bool out)
{
    const uintptr_t end = at + len;
    size_t i = lwa_first_pointer(block, at);

    if (len != 0 && !lwa_is_memory(at, len)) {
        lwa_unserved("the %zu bytes of host memory at %#zx are to be copied, and are not there", len, (size_t)at);
    }
    for (; i < block->pointer_count && block->pointers[i].at < end; i++) {
        const uintptr_t pointer = block->pointers[i].at;

        if (pointer > at) {
            move(block, at, pointer - at, out);
        }
        if (lwa_is_open(LWA_OPEN_POINTERS)) {
            pass_over(&block->pointers[i], out);
        }
        at = pointer + LWA_POINTER;
    }
    if (at < end) {
        move(block, at, end - at, out);
    }
}

/* ---- Queues ---- */

/* Whether a queue copies early or late is open: it shows where the program writes there meanwhile. */
static uint8_t *put_bytes(uintptr_t at, size_t len, bool out)
{
    return lwa_shadow && !out ? memcpy(lwa_memory(NULL, len), (const void *)at, len) : NULL;
}

static void compare_put(const waiting *w)
{
    if (w->put != NULL && memcmp(w->put, (const void *)w->at, w->len) != 0 && lwa_is_open(LWA_OPEN_QUEUES)) {
        w->block->root->open = true;
    }
    free(w->put);
}

void lwa_put_waiting(uint64_t queue, lwa_block *block, uintptr_t at, size_t len, bool out)
{
    OWN[queue].list = lwa_grown(OWN[queue].list, OWN[queue].end, &OWN[queue].room, sizeof(waiting));
    OWN[queue].list[OWN[queue].end++] = (waiting){block, at, len, out, put_bytes(at, len, out), lwa_from()};
    block->meets |= block->waiting++ != 0 && block->queue != queue && lwa_is_open(LWA_OPEN_QUEUES);
    block->queue = queue;
}

/* The first copy of a queue waits no more. Those behind it move to the front of the list when they are half of it or
   less, so that the list stays short where the queue is never empty. */
static waiting take_first(uint64_t queue)
{
    waiting *list = OWN[queue].list;
    const waiting first = list[OWN[queue].first++];
    const size_t left = OWN[queue].end - OWN[queue].first;

    if (left <= OWN[queue].first) {
        memmove(list, list + OWN[queue].first, left * sizeof *list);
        OWN[queue].first = 0;
        OWN[queue].end = left;
    }
    return first;
}

bool lwa_step(uint64_t queue)
{
    uint64_t made = 0;
    uint32_t status;
    lw_fault fault;
    waiting w;

    do {
        if (OWN[queue].first == OWN[queue].end) {
            return false;
        }
        lwa_room();
        status = lw_step(lwa_table(), 0, queue, &made, &fault);
    } while (lwa_is_lent(status));
    lwa_must(status, &fault);
    if (made != 1) {
        lwa_unserved("the table has no copy in the queue %zu", (size_t)queue);
    }
    lwa_script_copies("step", queue);
    w = take_first(queue);
    lwa_watch_copy(queue, w.block, w.at, w.len, w.out);
    compare_put(&w);
    lwa_copy(w.block, w.at, w.len, w.out);
    lwa_log_made(queue, w.block, w.at, w.len, w.out);
    lwa_made(w.block);
    return true;
}

/* Behind its copies, which are made before, the table is told of the wait itself. */
void lwa_wait(uint64_t queue)
{
    bool idle = true;
    uint64_t made;
    lw_fault fault;
    uint32_t status;

    lwa_log_copies("wait", queue);
    for (uint64_t q = 0; q < LWA_QUEUES; q++) {
        while ((queue == LW_NO_QUEUE_GIVEN || queue == q) && lwa_step(q)) {
            idle = false;
        }
    }
    if (idle) {
        lwa_log_copies("  idle", LW_NO_QUEUE_GIVEN);
    }
    lwa_script_copies("wait", queue);
    lwa_room();
    status = lw_wait(lwa_table(), 0, queue, &made, &fault);
    lwa_must(status, &fault);
    if (made != 0) {
        lwa_unserved("the table had %zu copies more", (size_t)made);
    }
}

void lwa_each_waiting(void (*act)(uint64_t queue, const void *from, uintptr_t at, size_t len, bool out))
{
    for (uint64_t queue = 0; queue < LWA_QUEUES; queue++) {
        for (size_t i = OWN[queue].first; i < OWN[queue].end; i++) {
            const waiting *w = &OWN[queue].list[i];

            act(queue, w->from, w->at, w->len, w->out);
        }
    }
}

size_t lwa_waiting(void)
{
    size_t count = 0;

    for (uint64_t queue = 0; queue < LWA_QUEUES; queue++) {
        count += OWN[queue].end - OWN[queue].first;
    }
    return count;
}

void lwa_forget_waiting(void)
{
    for (uint64_t queue = 0; queue < LWA_QUEUES; queue++) {
        while (OWN[queue].first < OWN[queue].end) {
            lwa_made(take_first(queue).block);
        }
    }
}
