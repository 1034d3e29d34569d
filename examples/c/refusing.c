/*
 * The three functions of heap.c for tests: they count the growths of memory, refuse one of them, and count the blocks
 * and bytes that are not given back.
 */
#include "refusing.h"
#include <assert.h>
#include <stdalign.h>
#include <stdint.h>
#include <stdlib.h>

/* Whether there is memory, and where. Where there is none, the place is not NULL all the same. */
typedef struct tried {
    bool ok;
    void *at;
} tried;

/* Stands before each block, which is so aligned as malloc's. */
typedef union head {
    size_t size;
    max_align_t most_aligned;
} head;

tried rattle_alloc(size_t size, size_t align);
tried rattle_realloc(void *at, size_t kept, size_t size, size_t align);
void rattle_dealloc(void *at);

static uint8_t nowhere;
static size_t growths;
static size_t refused; /* the number of the one that is refused, or 0 */
static size_t blocks;
static size_t bytes;

void refuse_growth(size_t number)
{
    growths = 0;
    refused = number;
}

bool was_growth_refused(void)
{
    return refused != 0 && growths >= refused;
}

size_t growths_made(void)
{
    return growths;
}

size_t blocks_held(void)
{
    return blocks;
}

size_t bytes_held(void)
{
    return bytes;
}

static tried answer(head *at)
{
    tried answered = {.ok = at != NULL, .at = at != NULL ? (void *)(at + 1) : &nowhere};
    return answered;
}

/* Gives a block another size, or makes one where there is none. It is aligned as malloc's, so the library must not ask
   for more. */
static head *sized(head *block, size_t size, size_t align)
{
    size_t before = block != NULL ? block->size : 0;
    head *grown;

    assert(align <= alignof(max_align_t));
    grown = ++growths == refused ? NULL : realloc(block, sizeof *grown + size);
    if (grown != NULL) {
        grown->size = size;
        bytes += size - before;
    }
    return grown;
}

tried rattle_alloc(size_t size, size_t align)
{
    head *made = sized(NULL, size, align);

    blocks += made != NULL;
    return answer(made);
}

tried rattle_realloc(void *at, size_t kept, size_t size, size_t align)
{
    (void)kept;
    return answer(sized((head *)at - 1, size, align));
}

void rattle_dealloc(void *at)
{
    head *block = (head *)at - 1;

    blocks--;
    bytes -= block->size;
    free(block);
}
