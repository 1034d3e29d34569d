/* While the program has several threads nothing is seen; and so it is told. It goes on when one is left. */
#include <pthread.h>
#include <stdio.h>
#include <sys/stat.h>
#include <time.h>

static int a[1000], sum;

static void *add(void *nothing)
{
    for (int i = 0; i < 1000; i++) {
        sum += a[i];
    }
    return nothing;
}

static void kernel(void)
{
#pragma acc parallel loop present(a)
    for (int i = 0; i < 1000; i++) {
        a[i] += 1;
    }
}

static pthread_barrier_t both;

static void *wait_for_main(void *nothing)
{
    pthread_barrier_wait(&both);
    pthread_barrier_wait(&both);
    return nothing;
}

static size_t threads(void)
{
    struct stat tasks;

    return stat("/proc/self/task", &tasks) == 0 ? tasks.st_nlink : 0;
}

/* A thread that was joined may be there a moment longer. The sanitizer of threads has one of its own, which stays. */
static void join(pthread_t other, size_t before)
{
    pthread_join(other, NULL);
    for (int n = 0; n < 1000 && threads() > before; n++) {
        nanosleep(&(struct timespec){.tv_nsec = 1000000}, NULL);
    }
}

int main(void)
{
    const size_t before = threads();
    pthread_t other;

    pthread_barrier_init(&both, NULL, 2);
#pragma acc enter data copyin(a)
    kernel();
    pthread_create(&other, NULL, add, NULL);
    join(other, before);
    printf("%d\n", sum + a[0]);
    pthread_create(&other, NULL, wait_for_main, NULL);
    pthread_barrier_wait(&both);
    kernel();
    printf("%d\n", a[1]);
    pthread_barrier_wait(&both);
    join(other, before);
    kernel();
    printf("%d\n", a[2]);
#pragma acc exit data delete(a)
    return 0;
}
