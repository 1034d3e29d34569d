/* Eight threads at once, a thousand rounds each: regions, queues, kernels, attached pointers and device addresses of
   their own, with one array that all count in. Each looks at what came of it. */
#include <openacc.h>
#include <pthread.h>
#include <stdio.h>
#include <stdlib.h>

enum { THREADS = 8, ROUNDS = 1000 };

static int shared[THREADS];

typedef struct list {
    long n;
    int *data;
} list;

static int in_a_region(int *a, int round, int me)
{
#pragma acc data copy(a[0:16]) present(shared)
    {
#pragma acc parallel loop present(a[0:16])
        for (int i = 0; i < 16; i++) {
            a[i] += round;
        }
#pragma acc parallel present(shared)
        shared[me]++;
    }
    return a[15] != 15 + round;
}

static int in_a_queue(int *a, int round, int me)
{
    a[3] = round;
#pragma acc enter data copyin(a[0:16]) async(me)
#pragma acc parallel present(a[0:16]) async(me)
    a[3] += 2;
#pragma acc exit data copyout(a[0:16]) async(me)
    acc_wait(me);
    return a[3] != round + 2;
}

static int by_addresses(int *a, int round)
{
    int *there = acc_copyin(a, 16 * sizeof *a), back = 0, *memory = acc_malloc(64), *kept = memory;
    list s = {16, a};
    int wrong;

    acc_memcpy_to_device(memory + 3, &round, sizeof round);
#pragma acc enter data copyin(s)
    acc_attach((void **)&s.data);
#pragma acc parallel present(s) deviceptr(memory)
    s.data[1] = memory[3] + (int)s.n;
    acc_memcpy_from_device(&back, there + 1, sizeof back);
    wrong = back != round + 16;
    acc_detach((void **)&s.data);
#pragma acc exit data delete(s)
    acc_free(kept);
    acc_delete(a, 16 * sizeof *a);
    return wrong;
}

static void *work(void *argument)
{
    const int me = *(const int *)argument;
    int *a = malloc(16 * sizeof *a);
    long wrong = 0;

    for (int round = 0; round < ROUNDS; round++) {
        for (int i = 0; i < 16; i++) {
            a[i] = i;
        }
        wrong += in_a_region(a, round, me);
        wrong += in_a_queue(a, round, me);
        wrong += by_addresses(a, round);
    }
    free(a);
    return (void *)wrong;
}

int main(void)
{
    pthread_t threads[THREADS];
    int me[THREADS];
    long wrong = 0;

#pragma acc enter data copyin(shared)
    for (int i = 0; i < THREADS; i++) {
        me[i] = i;
        pthread_create(&threads[i], NULL, work, &me[i]);
    }
    for (int i = 0; i < THREADS; i++) {
        void *of_one;

        pthread_join(threads[i], &of_one);
        wrong += (long)of_one;
    }
#pragma acc exit data copyout(shared)
    printf("wrong %ld, counted", wrong);
    for (int i = 0; i < THREADS; i++) {
        printf(" %d", shared[i]);
    }
    printf("\n");
    return 0;
}
