/* What a kernel reads is not seen. With `all` there is a note where a kernel has an array of which the host has newer
   bytes, or of which some were never filled. */
#include <stdio.h>

static int a[6], b[6];

static void add(void)
{
#pragma acc parallel loop present(a, b)
    for (int i = 0; i < 6; i++) {
        b[i] = a[i] + 1;
    }
}

int main(void)
{
#pragma acc enter data copyin(a) create(b)
    a[4] = 3;
    add();
#pragma acc update device(a[4:1])
    add();
#pragma acc exit data delete(a) copyout(b)
    printf("%d %d\n", b[3], b[4]);
    return 0;
}
