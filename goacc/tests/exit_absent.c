/* Section 2.7.12 and 2.7.9: exit data of what is absent, or was only counted by a region, does nothing. */
#include "show.h"

int main(void)
{
    int a[2] = {1, 2};

#pragma acc exit data copyout(a)
#pragma acc exit data delete(a) finalize
    numbers("host, absent", a, 2);
#pragma acc data copyin(a)
    {
        a[1] = 6;
#pragma acc exit data copyout(a)
        numbers("host in the region", a, 2);
        device("device in the region", a, 2);
    }
    device("device at the end", a, 2);
    return 0;
}
