/* Sections 2.16.3 and 3.2: a program that asks a queue again and again sees it done, with the bytes that were copied.
   */
#include "show.h"

int main(void)
{
    int a[3] = {1, 2, 3};

    acc_copyin(a, sizeof a);
#pragma acc parallel loop present(a)
    for (int i = 0; i < 3; i++) {
        a[i] = 100 + i;
    }
    acc_update_self_async(a, sizeof *a, 6);
    acc_update_self_async(a + 2, sizeof *a, 6);
    while (!acc_async_test(6)) {
    }
    numbers("host", a, 3);
    acc_copyout_async(a, sizeof a, 6);
    acc_wait_async(6, 7);
    acc_wait(7);
    numbers("host at the end", a, 3);
    device("device at the end", a, 3);
    return 0;
}
