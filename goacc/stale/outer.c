/* `copyout` inside of an outer region copies nothing. */
#include <stdio.h>

static int a[4];

int main(void)
{
#pragma acc data copy(a)
    {
#pragma acc data copyout(a)
        {
#pragma acc parallel loop present(a)
            for (int i = 0; i < 4; i++) {
                a[i] = 9;
            }
        }
        printf("%d\n", a[0]);
    }
    printf("%d\n", a[0]);
    return 0;
}
