/* What a function of the C library reads is told at the line that calls it. The host's local array is on the stack. */
#include <stdio.h>
#include <string.h>

static void *(*volatile copy_bytes)(void *, const void *, size_t) = memcpy;

int main(void)
{
    int a[64] = {0}, copy[64], n = 64;

#pragma acc data copyin(a)
    {
#pragma acc parallel loop present(a)
        for (int i = 0; i < n; i++) {
            a[i] = i;
        }
    }
    copy_bytes(copy, a, sizeof copy);
    printf("%d\n", copy[3]);
    return 0;
}
