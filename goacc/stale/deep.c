/* A deep copy with a pointer forgotten: one array of the structure comes back, and the other one does not. */
#include <stdio.h>
#include <stdlib.h>

enum { N = 6 };

struct particles {
    float *x, *v;
    int n;
};

static float x[N], v[N];

int main(void)
{
    struct particles p = {x, v, N};

#pragma acc enter data copyin(p) copyin(p.x[0:N], p.v[0:N])
#pragma acc parallel loop present(p)
    for (int i = 0; i < N; i++) {
        p.v[i] += 2;
        p.x[i] += p.v[i];
    }
#pragma acc update self(p.x[0:N])
    printf("n %d\n", p.n);
    printf("x %g\n", p.x[1]);
    printf("v %g\n", p.v[1]);
#pragma acc exit data copyout(p.x[0:N], p.v[0:N])
#pragma acc exit data delete(p)
    printf("v %g\n", p.v[1]);
    return 0;
}
