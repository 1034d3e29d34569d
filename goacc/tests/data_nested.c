/* Section 2.6.7: an inner region of the same array counts, and copies nothing in or out. */
#include "show.h"

int main(void)
{
    int a[2] = {1, 2};

#pragma acc data copy(a)
    {
        a[0] = 7;
#pragma acc data copy(a)
        {
            device("device in the inner region", a, 2);
#pragma acc parallel loop copy(a)
            for (int i = 0; i < 2; i++) {
                a[i] += 100;
            }
        }
        numbers("host between the ends", a, 2);
        device("device between the ends", a, 2);
    }
    numbers("host at the end", a, 2);
    return 0;
}
