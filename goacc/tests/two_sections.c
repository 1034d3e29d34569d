/* Sections 2.6.6 and 2.7.9: where one exit data names two sections of a mapping that was entered twice, the item that
   ends it copies out its own section, and the other one's bytes of the host stay. */
#include "show.h"

static void leave(int *first, int *second)
{
#pragma acc exit data copyout(first[0:2], second[0:2])
}

int main(void)
{
    int a[8] = {1, 1, 1, 1, 1, 1, 1, 1};

#pragma acc enter data copyin(a)
#pragma acc enter data copyin(a)
    a[0] = 100;
    a[4] = 100;
    a[6] = 100;
    leave(a, a + 4);
    printf("first of both %d, of none %d\n", a[0] + a[4], a[6]);
    device("device", a, 8);
    return 0;
}
