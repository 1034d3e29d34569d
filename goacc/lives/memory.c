/* Over a long life the library's memory stays: of a queue that is never empty, and of arrays that are mapped one behind
   the other to one block of acc_malloc. */
#include <malloc.h>
#include <openacc.h>
#include <stdio.h>

enum { FIRST = 2000, LIFE = 60000, LITTLE = 65536 };

static int a[4], b[4], *there;

/* The sanitizers have a heap of their own. */
#ifdef __cplusplus
extern "C"
#endif
size_t __sanitizer_get_current_allocated_bytes(void) __attribute__((weak));

static size_t used(void)
{
    const struct mallinfo2 heap = mallinfo2();

    return __sanitizer_get_current_allocated_bytes != NULL ? __sanitizer_get_current_allocated_bytes()
                                                           : heap.uordblks + heap.hblkhd;
}

static void put(void)
{
#pragma acc update self(a) async(1)
}

static void map(void)
{
    acc_map_data(b, there, sizeof b);
    acc_unmap_data(b);
}

/* Tells how much memory is used behind all steps, and was not behind the first ones. */
static void live(const char *name, void (*step)(void))
{
    size_t before, behind;

    for (int i = 0; i < FIRST; i++) {
        step();
    }
    before = used();
    for (int i = 0; i < LIFE; i++) {
        step();
    }
    behind = used();
    printf("%s: ", name);
    if (behind < before + LITTLE) {
        printf("the memory stays\n");
    } else {
        printf("%zu bytes more\n", behind - before);
    }
}

int main(void)
{
    acc_copyin(a, sizeof a);
    there = (int *)acc_malloc(sizeof b);
    live("a queue", put);
    live("parts", map);
#pragma acc wait(1)
    acc_delete(a, sizeof a);
    acc_free(there);
    return 0;
}
