/* The memory of the static library, which asks for it by the first three functions (docs/C.md), and of what comes and
   goes with each directive: all under the lock. Small pieces that are given back wait for the next one of their size. */
#include <malloc.h>
#include <stdbool.h>
#include <stddef.h>
#include <stdint.h>
#include <stdlib.h>

#include "inner.h"

/* Whether there is memory, and where. Where there is none, the place is not NULL all the same. */
typedef struct tried {
    bool ok;
    void *at;
} tried;

static uint8_t nowhere;

/* Pieces by their sizes, which are eight less than a multiple of 16, and 24 at least: as malloc has them, and so asked
   for, since the sanitizers' malloc does not round. */
enum { UNIT = 16, LEAST = 24, KINDS = 64 };
typedef struct piece {
    struct piece *next;
} piece;
static piece *pieces[KINDS];

static tried answer(void *at)
{
    return (tried){at != NULL, at != NULL ? at : &nowhere};
}

tried rattle_alloc(size_t size, size_t align)
{
    (void)align;
    const size_t wanted = size > LEAST ? size : LEAST;
    const size_t kind = wanted < UNIT * (KINDS - 2) ? (wanted + UNIT / 2 + UNIT - 1) / UNIT : 0;
    piece *first = pieces[kind];

    if (first == NULL) {
        return answer(malloc(kind != 0 ? UNIT * kind - UNIT / 2 : wanted));
    }
    pieces[kind] = first->next;
    return answer(first);
}

tried rattle_realloc(void *at, size_t kept, size_t size, size_t align)
{
    (void)kept;
    return answer(realloc(at, size != 0 ? size : align));
}

void rattle_dealloc(void *at)
{
    const size_t kind = (malloc_usable_size(at) + UNIT / 2) / UNIT;

    if (kind < 2 || kind >= KINDS) {
        free(at);
        return;
    }
    ((piece *)at)->next = pieces[kind];
    pieces[kind] = at;
}

void *lwa_piece(size_t size)
{
    const tried piece = rattle_alloc(size, 1);

    if (!piece.ok) {
        lwa_unserved("no memory for the library's own lists");
    }
    return piece.at;
}
