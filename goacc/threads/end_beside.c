/* The program ends while a kernel of another thread runs, which has its memory to the end. */
#include <openacc.h>
#include <pthread.h>
#include <stdatomic.h>
#include <stdio.h>

static atomic_int running;
static volatile int a[4096];

static void note(void)
{
    running = 1;
}

static void *run(void *unused)
{
#pragma acc parallel copy(a)
    for (unsigned i = 0; 1; i++) {
        a[i % 4096]++;
        if (i == 4096) {
            note();
        }
    }
    return unused;
}

int main(void)
{
    pthread_t thread;

    pthread_create(&thread, NULL, run, NULL);
    while (!running) {
    }
    printf("present: %d\n", acc_is_present((void *)a, sizeof a));
    return 0;
}
