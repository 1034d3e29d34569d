/*
 * The three functions by which the library has its memory, over malloc, realloc and free. docs/C.md tells what they
 * owe. The kit's liblibc_c.a has the same.
 */
#include <stdbool.h>
#include <stddef.h>
#include <stdint.h>
#include <stdlib.h>

/* Whether there is memory, and where. Where there is none, the place is not NULL all the same. */
typedef struct tried {
    bool ok;
    void *at;
} tried;

tried rattle_alloc(size_t size, size_t align);
tried rattle_realloc(void *at, size_t kept, size_t size, size_t align);
void rattle_dealloc(void *at);

static uint8_t nowhere;

static tried answer(void *at)
{
    tried answered = {.ok = at != NULL, .at = at != NULL ? at : &nowhere};
    return answered;
}

tried rattle_alloc(size_t size, size_t align)
{
    return answer(malloc(size != 0 ? size : align));
}

tried rattle_realloc(void *at, size_t kept, size_t size, size_t align)
{
    (void)kept;
    return answer(realloc(at, size != 0 ? size : align));
}

void rattle_dealloc(void *at)
{
    free(at);
}
