/* What is left at the end is told: mappings by rising address, and then copies that wait by their queues. */
#include "show.h"

static int a[100000], c[3] = {1, 2, 3};

int main(void)
{
#pragma acc enter data copyin(a[50000:4])
#pragma acc enter data create(a[50008:3]) copyin(c)
#pragma acc update self(a[50009:2]) async(3)
#pragma acc exit data copyout(c) async(2)
    numbers("not waited for", c, 3);
    return 0;
}
