/* A child has the table as it was, also while another thread is in a kernel, and writes neither script nor report. */
#include <openacc.h>
#include <pthread.h>
#include <stdatomic.h>
#include <stdio.h>
#include <stdlib.h>
#include <sys/wait.h>
#include <unistd.h>

static atomic_int step;
static int a[4] = {1}, b[4] = {1};

static void stay(void)
{
    step = 1;
    while (step == 1) {
    }
}

static void *run(void *unused)
{
#pragma acc parallel present(a)
    {
        stay();
        a[1] = 2;
    }
    return unused;
}

int main(void)
{
    pthread_t thread;
    int status;

#pragma acc enter data copyin(a, b)
    pthread_create(&thread, NULL, run, NULL);
    while (step == 0) {
    }
    if (fork() == 0) {
        alarm(20);
#pragma acc parallel present(b)
        b[0] = 5;
#pragma acc exit data copyout(b)
        printf("child: %d, present %d\n", b[0], acc_is_present(b, sizeof b));
        fflush(stdout);
#ifdef __SANITIZE_ADDRESS__
        _exit(0); /* the stack of the thread that is no more would seem a leak */
#endif
        exit(0);
    }
    wait(&status);
    step = 2;
    pthread_join(thread, NULL);
    printf("status %d, %d, present %d\n", status, b[0], acc_is_present(a, sizeof a));
#pragma acc exit data delete(a, b)
    return 0;
}
