/* Eight threads enter regions over one array, with kernels in them, a thousand times each. Each adds to an element of
   its own, so that nothing that is lost goes unseen; the array stays mapped from before the first to after the last.
   */
#include <openacc.h>
#include <pthread.h>
#include <stdio.h>

enum { THREADS = 8, ROUNDS = 1000 };

static int a[THREADS];
static int own[THREADS][16];

static void *work(void *argument)
{
    const int me = *(const int *)argument;

    for (int round = 0; round < ROUNDS; round++) {
#pragma acc data copy(a) copy(own[me:1])
        {
#pragma acc parallel loop present(a)
            for (int i = me; i < me + 1; i++) {
                a[i]++;
            }
#pragma acc parallel loop present(own[me:1])
            for (int i = 0; i < 16; i++) {
                own[me][i] += i;
            }
        }
    }
    return NULL;
}

int main(void)
{
    pthread_t threads[THREADS];
    int numbers[THREADS];

#pragma acc enter data copyin(a)
    for (int i = 0; i < THREADS; i++) {
        numbers[i] = i;
        pthread_create(&threads[i], NULL, work, &numbers[i]);
    }
    for (int i = 0; i < THREADS; i++) {
        pthread_join(threads[i], NULL);
    }
    printf("before:");
    for (int i = 0; i < THREADS; i++) {
        printf(" %d", a[i]);
    }
#pragma acc exit data copyout(a)
    printf("\nafter:");
    for (int i = 0; i < THREADS; i++) {
        printf(" %d", a[i]);
    }
    printf("\nown:");
    for (int i = 0; i < THREADS; i++) {
        printf(" %d", own[i][15]);
    }
    printf("\npresent: %d\n", acc_is_present(a, sizeof a));
    return 0;
}
