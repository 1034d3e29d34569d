/* Section 2.16: the copies of one queue are made in their order, and wait alone waits for all queues. */
#include "show.h"

int main(void)
{
    int a[2] = {1, 2}, b[2] = {7, 8};

#pragma acc enter data copyin(a, b)
#pragma acc parallel loop present(a)
    for (int i = 0; i < 2; i++) {
        a[i] += 10;
    }
#pragma acc update self(a[0:1]) async(4)
#pragma acc update device(b) async(5)
#pragma acc update self(a[1:1]) async(4)
#pragma acc wait
    numbers("host", a, 2);
    device("b", b, 2);
    printf("queue 4 is done: %d, all are: %d\n", acc_async_test(4), acc_async_test_all());
#pragma acc exit data delete(a, b)
    return 0;
}
