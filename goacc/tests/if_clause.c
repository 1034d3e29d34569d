/* Section 2.6.5 and 2.6.6: where an if clause is false nothing is mapped, and a kernel runs on the host's memory. */
#include "show.h"

int main(int argc, char **argv)
{
    const int no = argc > 5;
    int a[2] = {1, 2};

    (void)argv;
#pragma acc enter data copyin(a) if (no)
    device("after enter data", a, 2);
#pragma acc data copy(a) if (no)
    {
        device("in the region", a, 2);
#pragma acc parallel loop copy(a) if (no)
        for (int i = 0; i < 2; i++) {
            a[i] *= 3;
        }
        numbers("host", a, 2);
    }
#pragma acc update self(a) if (no)
#pragma acc exit data delete(a) if (no)
    numbers("host at the end", a, 2);
    return 0;
}
