/* Memory is given back while it is stale, and what comes there is another array. */
#include <stdio.h>
#include <stdlib.h>

enum { N = 1 << 20 };

static void use(int n)
{
    double *t = malloc(n * sizeof *t);

    for (int i = 0; i < n; i++) {
        t[i] = i;
    }
#pragma acc parallel loop copyin(t[0:n])
    for (int i = 0; i < n; i++) {
        t[i] = -1;
    }
    free(t);
}

int main(void)
{
    double sum = 0;

    for (int round = 0; round < 3; round++) {
        double *zeros;

        use(N);
        zeros = calloc(N, sizeof *zeros);
        for (int i = 0; i < N; i += 100) {
            sum += zeros[i];
        }
        free(zeros);
        use(10);
    }
    printf("%g\n", sum);
    return 0;
}
