/* Section 2.7.11: no_create uses what is present, and else the kernel has the host's own memory. */
#include "show.h"

static void add(int *a)
{
#pragma acc parallel loop no_create(a[0:2])
    for (int i = 0; i < 2; i++) {
        a[i]++;
    }
}

int main(void)
{
    int *a = malloc(2 * sizeof *a);

    a[0] = 1;
    a[1] = 2;
    add(a);
    numbers("host, absent", a, 2);
    device("device, absent", a, 2);
#pragma acc enter data copyin(a[0:2])
    add(a);
    numbers("host, present", a, 2);
    device("device, present", a, 2);
#pragma acc exit data delete(a[0:2])
    device("device at the end", a, 2);
    free(a);
    return 0;
}
