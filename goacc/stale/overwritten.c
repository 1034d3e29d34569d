/* `update self` stands where `update device` is meant: older bytes of the device come over what the host wrote. */
#include <stdio.h>

static int a[4];

int main(void)
{
#pragma acc data copy(a)
    {
        a[1] = 5;
        a[2] = 6;
#pragma acc update self(a)
        printf("%d\n", a[0]);
        printf("%d\n", a[1]);
    }
    return 0;
}
