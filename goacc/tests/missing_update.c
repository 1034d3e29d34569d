/* An update self is missing: the sum is that of the numbers that the host has, not of those that the kernel made. */
#include <stdio.h>

int main(void)
{
    int a[4] = {1, 2, 3, 4}, sum = 0;

#pragma acc enter data copyin(a)
#pragma acc parallel loop present(a)
    for (int i = 0; i < 4; i++) {
        a[i] *= 10;
    }
    for (int i = 0; i < 4; i++) {
        sum += a[i];
    }
    printf("sum %d\n", sum);
#pragma acc exit data delete(a)
    return 0;
}
