/* A stencil of a thousand elements, which moves between two arrays. */
#include <stdio.h>
#include <stdlib.h>

enum { N = 1000, STEPS = 100 };

int main(void)
{
    double *a = malloc(N * sizeof *a), *b = malloc(N * sizeof *b);

    for (int i = 0; i < N; i++) {
        a[i] = b[i] = i % 7;
    }
#pragma acc data copy(a[0:N]) create(b[0:N])
    for (int step = 0; step < STEPS; step++) {
#pragma acc parallel loop present(a[0:N], b[0:N])
        for (int i = 1; i < N - 1; i++) {
            b[i] = (a[i - 1] + a[i] + a[i + 1]) / 3;
        }
#pragma acc parallel loop present(a[0:N], b[0:N])
        for (int i = 1; i < N - 1; i++) {
            a[i] = b[i];
        }
    }
    printf("%.4f\n", a[N / 2]);
    free(a);
    free(b);
    return 0;
}
