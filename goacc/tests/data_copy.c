/* Section 2.7.7: copy copies in at the start of the region, and out at its end, and not in between. */
#include "show.h"

int main(void)
{
    int a[4] = {1, 2, 3, 4};

#pragma acc data copy(a)
    {
        device("device at the start", a, 4);
        a[0] = 100;
        device("device after the host wrote", a, 4);
#pragma acc parallel loop present(a)
        for (int i = 0; i < 4; i++) {
            a[i] += 10;
        }
        numbers("host in the region", a, 4);
        device("device after the kernel", a, 4);
    }
    numbers("host at the end", a, 4);
    device("device at the end", a, 4);
    return 0;
}
