/* Section 2.16: copies of one queue are made in their order, also of sections that are mapped apart; and one whose
   mapping is counted down alone is none. */
#include "show.h"

static int a[8], b[8];

static void out_and_in(void)
{
    int got = -1;

#pragma acc enter data copyin(a)
#pragma acc parallel loop present(a)
    for (int i = 0; i < 8; i++) {
        a[i] = 100 + i;
    }
#pragma acc exit data copyout(a) async(2)
#pragma acc enter data copyin(a[2:4]) async(2)
#pragma acc wait(2)
#pragma acc parallel present(a[2:4]) copyout(got)
    got = a[3];
    printf("host %d, device %d\n", a[3], got);
#pragma acc exit data delete(a[2:4])
}

static void counted_down(void)
{
    int *p = b, *q = b + 3;

#pragma acc enter data copyin(b)
#pragma acc parallel loop present(b)
    for (int i = 0; i < 8; i++) {
        b[i] = 100 + i;
    }
#pragma acc exit data copyout(b) async(2)
#pragma acc enter data create(p[0:6])
#pragma acc enter data create(p[0:6])
#pragma acc enter data create(p[0:6])
#pragma acc exit data copyout(p[0:3]) copyout(q[0:3]) async(2)
#pragma acc wait(2)
    printf("%d %d %d\n", b[0], b[4], b[7]);
#pragma acc exit data delete(p[0:6])
}

int main(void)
{
    out_and_in();
    counted_down();
    return 0;
}
