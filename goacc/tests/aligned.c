/* What has an alignment in the program has it on the device, by itself, in a section, and as a member. */
#include "show.h"

#include <stdalign.h>
#include <stdint.h>

typedef float four __attribute__((vector_size(16)));
typedef struct line {
    alignas(64) double d[8];
} line;

static struct {
    float a[4];
    four v[4];
} s;

int main(void)
{
    static char first[16], second[24];
    static line l[4];
    alignas(4096) static char page[64];
    uintptr_t lines = 1, pages = 1;
    float *f = (float *)s.v;

    for (int i = 0; i < 16; i++) {
        f[i] = i;
    }
#pragma acc data copy(first, second)
    {
#pragma acc parallel copyin(l[1:2]) copyout(lines)
        lines = (uintptr_t)&l[1] % 64;
#pragma acc parallel copyin(page) copyout(pages)
        pages = (uintptr_t)page % 4096;
#pragma acc parallel copy(s.a[1:3], s.v)
        for (int i = 0; i < 4; i++) {
            s.v[i] = s.v[i] + s.v[i];
        }
    }
    printf("%d %d %g\n", (int)lines, (int)pages, f[15]);
    return 0;
}
