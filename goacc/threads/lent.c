/* What needs a block that a kernel has waits until the kernel ends: an update, the end of a region, a copy that waits,
   and acc_memcpy_from_device. */
#include <openacc.h>
#include <pthread.h>
#include <stdatomic.h>
#include <stdio.h>
#include <time.h>

static atomic_int running, seen[4];
static int a[4] = {1, 2, 3, 4};

/* A tenth of a second of processor time. */
static void stay(void)
{
    running = 1;
    for (const clock_t start = clock(); clock() - start < CLOCKS_PER_SEC / 10;) {
    }
}

static void *run(void *unused)
{
#pragma acc parallel present(a)
    {
        stay();
        a[0] = 10;
    }
    return unused;
}

static void *update(void *unused)
{
#pragma acc update self(a[0:1])
    seen[0] = a[0];
    return unused;
}

static void *region(void *unused)
{
#pragma acc data copy(a)
    seen[1] = running + acc_is_present(a, sizeof a);
    return unused;
}

static void *queue(void *unused)
{
#pragma acc update self(a[1:3]) async(1)
#pragma acc wait(1)
    seen[2] = a[1];
    return unused;
}

static void *from_device(void *unused)
{
    int there[4];

    acc_memcpy_from_device(there, acc_deviceptr(a), sizeof there);
    seen[3] = there[0];
    return unused;
}

int main(void)
{
    static void *(*const others[])(void *) = {update, region, queue, from_device};
    pthread_t kernel, threads[4];

#pragma acc enter data copyin(a)
    pthread_create(&kernel, NULL, run, NULL);
    while (!running) {
    }
    for (int i = 0; i < 4; i++) {
        pthread_create(&threads[i], NULL, others[i], NULL);
    }
    for (int i = 0; i < 4; i++) {
        pthread_join(threads[i], NULL);
    }
    pthread_join(kernel, NULL);
    printf("%d %d %d %d\n", (int)seen[0], (int)seen[1], (int)seen[2], (int)seen[3]);
#pragma acc exit data delete(a)
    return 0;
}
