/* Sections 2.7.9 and 2.7.10: copyout copies out alone, and create copies nothing. */
#include "show.h"

int main(void)
{
    int a[3] = {1, 1, 1}, b[3] = {2, 2, 2};

#pragma acc data copyout(a) create(b)
    {
#pragma acc parallel loop present(a, b)
        for (int i = 0; i < 3; i++) {
            b[i] = i;
            a[i] = b[i] + 20;
        }
        device("b on the device", b, 3);
    }
    numbers("a", a, 3);
    numbers("b", b, 3);
    return 0;
}
