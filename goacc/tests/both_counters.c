/* Section 2.6.7: a mapping ends when both its counters are zero, and finalize leaves the structured one. */
#include "show.h"

int main(void)
{
    int a[2] = {1, 2};

#pragma acc data copy(a)
    {
#pragma acc enter data copyin(a)
#pragma acc exit data delete(a) finalize
        device("in the region, after finalize", a, 2);
#pragma acc enter data copyin(a)
        a[0] = 5;
    }
    numbers("host after the region", a, 2);
    device("device after the region", a, 2);
#pragma acc exit data copyout(a)
    numbers("host at the end", a, 2);
    device("device at the end", a, 2);
    return 0;
}
