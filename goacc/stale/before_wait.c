/* A copy back with `async` is read before its `wait`, and once behind it. */
#include <stdio.h>

static int a[8];

int main(void)
{
#pragma acc data copyin(a)
    {
#pragma acc parallel loop present(a)
        for (int i = 0; i < 8; i++) {
            a[i] = 7;
        }
#pragma acc update self(a) async(1)
        printf("%d\n", a[2]);
#pragma acc wait(1)
        printf("%d\n", a[2]);
        printf("%d\n", a[1]);
    }
    return 0;
}
