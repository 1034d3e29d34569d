/* Section 2.14.4: update copies the section that it names, each way, and counts nothing. */
#include "show.h"

int main(void)
{
    int a[5] = {1, 2, 3, 4, 5};

#pragma acc enter data copyin(a)
    for (int i = 0; i < 5; i++) {
        a[i] = 10 * i;
    }
#pragma acc update device(a[1:2])
    device("device", a, 5);
#pragma acc update self(a[2:3])
    numbers("host", a, 5);
    a[1] = 77;
#pragma acc update device(a[0:1])
#pragma acc update self(a[1:1])
    device("device after both ways", a, 5);
#pragma acc exit data delete(a)
    device("device at the end", a, 5);
    numbers("host at the end", a, 5);
    return 0;
}
