/* Device addresses keep the distances of members of a structure, also where it lies across a multiple of 1 GiB, as one
   of them does. */
#define _GNU_SOURCE
#include "show.h"

#include <stdint.h>
#include <sys/mman.h>

#define GIB ((uintptr_t)1 << 30)
#define PAGE 4096

typedef struct across {
    int n, between, a[4], m;
} across;

/* One of which two elements of `a` lie before the multiple. */
static across *make(void)
{
    char *room = (char *)mmap(NULL, 2 * GIB, PROT_NONE, MAP_PRIVATE | MAP_ANONYMOUS | MAP_NORESERVE, -1, 0);
    char *multiple = room + GIB - (uintptr_t)room % GIB;

    mprotect(multiple - PAGE, 2 * PAGE, PROT_READ | PROT_WRITE);
    return (across *)(multiple - 4 * sizeof(int));
}

static int distance(void *at, void *other)
{
    return (int)((char *)acc_deviceptr(other) - (char *)acc_deviceptr(at));
}

int main(void)
{
    across *s = make();

    acc_create(&s->n, sizeof s->n);
    acc_create(s->a, sizeof s->a);
    acc_create(&s->m, sizeof s->m);
    printf("n to a: %d\na to m: %d\n", distance(&s->n, s->a), distance(s->a, &s->m));
    acc_delete(&s->n, sizeof s->n);
    acc_delete(s->a, sizeof s->a);
    acc_delete(&s->m, sizeof s->m);
    return 0;
}
