/* Section 2.13: declare in a function maps its array from there to the function's end. */
#include "show.h"

static int *last;

static int sum(int n)
{
    int a[3] = {n, n + 1, n + 2};
    int total = 0;
#pragma acc declare copy(a)

    last = a;
#pragma acc parallel loop reduction(+ : total)
    for (int i = 0; i < 3; i++) {
        total += a[i];
    }
    printf("present %d\n", acc_is_present(a, sizeof a));
    return total;
}

int main(void)
{
    printf("sum %d\n", sum(4));
    printf("present %d\n", acc_is_present(last, 3 * sizeof *last));
    return 0;
}
