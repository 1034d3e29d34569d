/* Section 2.7.8: copyin copies in, and nothing out. */
#include "show.h"

int main(void)
{
    int a[3] = {5, 6, 7};

#pragma acc data copyin(a)
    {
#pragma acc parallel loop present(a)
        for (int i = 0; i < 3; i++) {
            a[i] *= 2;
        }
        device("device", a, 3);
    }
    numbers("host", a, 3);
    device("device at the end", a, 3);
    return 0;
}
