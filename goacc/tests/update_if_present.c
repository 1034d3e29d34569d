/* Section 2.14.4: with if_present an update passes over what is absent. */
#include "show.h"

int main(void)
{
    int a[2] = {1, 2}, b[2] = {3, 4};

#pragma acc enter data copyin(b)
    a[0] = 10;
    b[0] = 30;
#pragma acc update device(a, b) if_present
    device("a", a, 2);
    device("b", b, 2);
    b[1] = 40;
#pragma acc update self(a, b) if_present
    numbers("a of the host", a, 2);
    numbers("b of the host", b, 2);
#pragma acc exit data delete(b)
    return 0;
}
