/* Section 2.6.6: finalize takes all that enter data counted. */
#include "show.h"

int main(void)
{
    int a[2] = {8, 9}, b[2] = {3, 4};

#pragma acc enter data copyin(a, b)
#pragma acc enter data copyin(a, b)
#pragma acc enter data create(a, b)
    a[0] = 0;
    b[0] = 0;
#pragma acc exit data copyout(a) finalize
#pragma acc exit data delete(b) finalize
    numbers("a", a, 2);
    device("a on the device", a, 2);
    numbers("b", b, 2);
    device("b on the device", b, 2);
    return 0;
}
