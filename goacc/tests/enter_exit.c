/* Sections 2.6.6 and 2.6.7: enter data counts, and the last exit data copies out and ends the mapping. */
#include "show.h"

int main(void)
{
    int a[3] = {1, 2, 3};

#pragma acc enter data copyin(a)
    a[1] = 50;
#pragma acc enter data copyin(a)
    device("entered twice", a, 3);
#pragma acc exit data copyout(a)
    numbers("host after one exit", a, 3);
    device("device after one exit", a, 3);
#pragma acc exit data copyout(a)
    numbers("host after both", a, 3);
    device("device after both", a, 3);
    return 0;
}
