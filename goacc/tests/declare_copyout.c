/* Section 2.13: declare copyout, create and device_resident in a function. */
#include "show.h"

static void use(int n)
{
    int a[8], b[4];
#pragma acc declare copyout(a) create(b)

#pragma acc parallel present(a, b)
    {
        b[1] = 10;
        for (int i = 0; i < 8; i++) {
            a[i] = n + i + b[1];
        }
    }
    printf("%d %d\n", acc_is_present(a, sizeof a), acc_is_present(b, sizeof b));
}

static void resident(void)
{
    int c[4];
#pragma acc declare device_resident(c)

    printf("%d\n", acc_is_present(c, sizeof c));
}

int main(void)
{
    use(3);
    resident();
    return 0;
}
