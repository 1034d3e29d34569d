/* Section 2.16.2: a directive with a wait clause comes behind what waits in the queues that the clause names. */
#include "show.h"

int main(void)
{
    int a[2] = {1, 2}, b[2] = {0, 0};

#pragma acc enter data copyin(a) async(1)
#pragma acc enter data copyin(b) async(2)
#pragma acc parallel loop present(a, b) wait(1, 2)
    for (int i = 0; i < 2; i++) {
        b[i] = 3 * a[i];
    }
#pragma acc update self(b) async(1)
#pragma acc exit data delete(a, b) wait
    numbers("b", b, 2);
    return 0;
}
