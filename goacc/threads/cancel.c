/* A thread that is cancelled has the lock no more. */
#include <openacc.h>
#include <pthread.h>
#include <stdio.h>
#include <unistd.h>

static int a[4], b[4];

static void *work(void *unused)
{
    pthread_cancel(pthread_self());
#pragma acc enter data copyin(a)
    pthread_testcancel();
    return unused;
}

int main(void)
{
    pthread_t thread;
    void *end;

#pragma acc enter data copyin(b)
    pthread_create(&thread, NULL, work, NULL);
    pthread_join(thread, &end);
    alarm(20);
    printf("cancelled %d, present %d\n", end == PTHREAD_CANCELED, acc_is_present(a, sizeof a));
#pragma acc exit data delete(a, b)
    return 0;
}
