/* Section 2.6.2: in a data region a kernel uses what is present of an array that none of its clauses names. */
#include "show.h"

int main(void)
{
    int *a = malloc(4 * sizeof *a);
    int b[2] = {30, 40};

    for (int i = 0; i < 4; i++) {
        a[i] = i + 1;
    }
#pragma acc data copy(a[0:4]) copyin(b)
    {
#pragma acc kernels
        for (int i = 0; i < 4; i++) {
            a[i] *= 2;
        }
#pragma acc parallel loop
        for (int i = 2; i < 4; i++) {
            a[i] += b[i - 2];
        }
#pragma acc parallel loop
        for (int i = 0; i < 2; i++) {
            b[i]--;
        }
        numbers("host in the region", a, 4);
        device("b on the device", b, 2);
    }
    numbers("host at the end", a, 4);
    numbers("b of the host", b, 2);
#pragma acc parallel loop
    for (int i = 0; i < 2; i++) {
        b[i]--;
    }
    numbers("b, in no region", b, 2);
    free(a);
    return 0;
}
