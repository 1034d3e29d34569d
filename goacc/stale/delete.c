/* `delete` stands where `copyout` is meant: what the kernel wrote is lost. The other array is copied out. */
#include <stdio.h>

static int a[8], b[8];

int main(void)
{
#pragma acc enter data copyin(a, b)
#pragma acc parallel loop present(a, b)
    for (int i = 0; i < 4; i++) {
        a[i] = i + 1;
        b[i] = i + 1;
    }
#pragma acc exit data delete(a) copyout(b)
    printf("b %d\n", b[3]);
    printf("a[4] %d\n", a[4]);
    printf("a[3] %d\n", a[3]);
    printf("a[2] %d\n", a[2]);
    return 0;
}
