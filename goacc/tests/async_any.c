/* Section 2.16: any number that is not negative names a queue, of which any number of copies wait; a wait for one that
   was never named, or for acc_async_sync, is none. */
#include "show.h"

static int a[600], b[32][16];

int main(void)
{
    int c[4] = {1, 2, 3, 4}, sum = 0;

#pragma acc enter data copyin(a)
    for (int i = 0; i < 600; i++) {
        a[i] = i;
#pragma acc update device(a[i:1]) async(1)
    }
#pragma acc wait(acc_async_sync)
    printf("waits still: %d\n", !acc_async_test(1));
#pragma acc wait(1)
#pragma acc parallel present(a) copy(sum)
    for (int i = 0; i < 600; i++) {
        sum += a[i];
    }
    printf("%d\n", sum);
#pragma acc enter data copyin(c) async(16)
#pragma acc wait(16)
#pragma acc parallel present(c)
    c[0] = 9;
#pragma acc exit data copyout(c) async(1000)
#pragma acc wait(1000)
    printf("%d\n", c[0]);
    acc_wait(17);
    printf("never named: %d\n", acc_async_test(99));
    for (int i = 0; i < 32; i++) {
#pragma acc parallel loop copyout(b[i:1]) async(i)
        for (int j = 0; j < 16; j++) {
            b[i][j] = i;
        }
    }
#pragma acc wait
    printf("%d\n", b[31][5]);
#pragma acc exit data delete(a)
    return 0;
}
