/* Section 2.7.6: present finds what enter data mapped, and its end leaves that mapped. */
#include "show.h"

int main(void)
{
    int a[4] = {1, 2, 3, 4};

#pragma acc enter data copyin(a)
#pragma acc data present(a[1:2])
    {
#pragma acc parallel loop present(a)
        for (int i = 0; i < 4; i++) {
            a[i] = -a[i];
        }
    }
    numbers("host", a, 4);
    device("device", a, 4);
#pragma acc exit data copyout(a)
    numbers("host at the end", a, 4);
    return 0;
}
