/* A directive of more items than one of the table has. */
#include "show.h"

#define TEN(x) x##0, x##1, x##2, x##3, x##4, x##5, x##6, x##7, x##8, x##9

static int TEN(a), TEN(b), TEN(c), TEN(d), TEN(e), TEN(f), TEN(g);

int main(void)
{
#pragma acc enter data copyin(TEN(a), TEN(b), TEN(c), TEN(d), TEN(e), TEN(f), TEN(g))
    printf("present: %d %d\n", acc_is_present(&a0, sizeof a0), acc_is_present(&g9, sizeof g9));
#pragma acc parallel copy(TEN(a), TEN(b), TEN(c), TEN(d), TEN(e), TEN(f), TEN(g))
    {
        a0++;
        g9 += 2;
    }
#pragma acc exit data copyout(TEN(a), TEN(b), TEN(c), TEN(d), TEN(e), TEN(f), TEN(g))
    printf("%d %d\n", a0, g9);
    return 0;
}
