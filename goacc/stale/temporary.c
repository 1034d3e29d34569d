/* A temporary of the device is dropped, and the host never reads it; or writes it again before. */
#include <stdio.h>
#include <string.h>

enum { N = 5000 };

static double a[N], t[N], again[N];

int main(void)
{
    double sum = 0;

    for (int i = 0; i < N; i++) {
        a[i] = i;
    }
#pragma acc data copy(a) create(t, again)
    {
#pragma acc parallel loop present(a, t, again)
        for (int i = 0; i < N; i++) {
            t[i] = a[i] * 2;
            again[i] = 1;
        }
#pragma acc parallel loop present(a, t)
        for (int i = 0; i < N; i++) {
            a[i] = t[i] + 1;
        }
    }
    memset(again, 0, sizeof again / 2);
    for (int i = N / 2; i < N; i++) {
        again[i] = 0;
    }
    for (int i = 0; i < N; i++) {
        sum += a[i] + again[i];
    }
    printf("%g\n", sum);
    return 0;
}
