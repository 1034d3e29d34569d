/* Two halves of a rod change their ends through the host, with all updates. */
#include <stdio.h>

enum { N = 1024, STEPS = 3 };

static double left[N], right[N];

static void step(double *cells)
{
#pragma acc parallel loop present(cells[0:N])
    for (int i = 1; i < N - 1; i++) {
        cells[i] = cells[i] + 1;
    }
}

static void change_ends(void)
{
#pragma acc update self(left[N - 2:1], right[1:1])
    right[0] = left[N - 2];
    left[N - 1] = right[1];
#pragma acc update device(right[0:1], left[N - 1:1])
}

int main(void)
{
#pragma acc data copy(left, right)
    for (int i = 0; i < STEPS; i++) {
        step(left);
        step(right);
        change_ends();
    }
    printf("%g %g %g %g\n", left[N - 2], left[N - 1], right[0], right[1]);
    return 0;
}
