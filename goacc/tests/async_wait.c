/* Section 2.16.3: what waits in a queue is done when that queue was waited for, and the others go on waiting. The
   kernel waits for its own queue. */
#include "show.h"

int main(void)
{
    int a[2] = {1, 2}, b[2] = {3, 4}, c[2] = {5, 6};

#pragma acc enter data copyin(a) async(1)
#pragma acc enter data copyin(b) async(2)
#pragma acc wait(1)
    device("a", a, 2);
#pragma acc wait(2)
    device("b", b, 2);
#pragma acc enter data copyin(c) async(3)
#pragma acc parallel loop present(c) async(3)
    for (int i = 0; i < 2; i++) {
        c[i] += 100;
    }
#pragma acc exit data copyout(c) async(3)
#pragma acc exit data copyout(a, b)
#pragma acc wait(3)
    numbers("c", c, 2);
    device("c on the device", c, 2);
    return 0;
}
