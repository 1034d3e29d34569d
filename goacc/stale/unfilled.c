/* A kernel writes all but the ends of an array that is copied out, and the host reads an end. */
#include <stdio.h>

static float a[100];

int main(void)
{
#pragma acc data copyout(a)
    {
#pragma acc parallel loop present(a)
        for (int i = 1; i < 99; i++) {
            a[i] = i;
        }
    }
    printf("%g %g\n", a[1], a[98]);
    printf("%d\n", a[0] < 0);
    return 0;
}
