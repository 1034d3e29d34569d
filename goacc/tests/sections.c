/* Section 2.7.1: a section of an array is mapped, and parts of it are inside. */
#include "show.h"

int main(void)
{
    int a[10];

    for (int i = 0; i < 10; i++) {
        a[i] = i;
    }
#pragma acc enter data copyin(a[2:6])
    printf("whole %d, part %d, before %d\n", acc_is_present(a, sizeof a), acc_is_present(a + 3, 2 * sizeof *a),
           acc_is_present(a, 2 * sizeof *a));
#pragma acc parallel loop present(a[4:2])
    for (int i = 4; i < 6; i++) {
        a[i] += 1000;
    }
    device("device", a + 2, 6);
    printf("distance %d\n", (int)((int *)acc_deviceptr(a + 5) - (int *)acc_deviceptr(a + 2)));
    printf("back %d\n", (int)((int *)acc_hostptr(acc_deviceptr(a + 5)) - a));
#pragma acc exit data copyout(a[4:1])
    numbers("host", a, 10);
    device("device at the end", a + 2, 6);
    return 0;
}
