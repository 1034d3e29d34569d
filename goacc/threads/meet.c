/* Kernels run with the lock free: two on arrays of their own wait for each other, and one waits for what another thread
   does behind a directive. */
#include <openacc.h>
#include <pthread.h>
#include <stdatomic.h>
#include <stdio.h>
#include <time.h>

static atomic_int steps;
static int a[4], b[4], c[4];

/* Waits until so many steps are made, for some seconds at most. */
static int made(int wanted)
{
    for (const time_t start = time(NULL); steps < wanted && time(NULL) - start < 20;) {
    }
    return steps >= wanted;
}

static void step(void)
{
    steps++;
}

static void *other(void *unused)
{
    int met = 0;

#pragma acc parallel copy(b) copyout(met)
    {
        step();
        met = made(2);
        b[0] = 1;
    }
    printf("one met: %d\n", met);
    made(3);
#pragma acc enter data copyin(c)
    step();
    return unused;
}

int main(void)
{
    pthread_t thread;
    int met = 0, went_on = 0;

    pthread_create(&thread, NULL, other, NULL);
#pragma acc parallel copy(a) copyout(met, went_on)
    {
        step();
        met = made(2);
        step();
        went_on = made(4);
        a[0] = 2;
    }
    pthread_join(thread, NULL);
    printf("the other met: %d, went on: %d\n%d %d %d\n", met, went_on, a[0], b[0], acc_is_present(c, sizeof c));
#pragma acc exit data delete(c)
    return 0;
}
