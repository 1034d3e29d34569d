/* While a kernel runs another thread unmaps its array, and maps another to the same memory of acc_malloc. The end of the
   region around the kernel ends the memory, and copies the first array. */
#include <openacc.h>
#include <pthread.h>
#include <stdatomic.h>
#include <stdio.h>
#include <time.h>

static atomic_int running, unmapped;
static int b[4] = {1, 2, 3, 4}, c[2], *there;

/* Waits until it is so, for some seconds at most. */
static void await(atomic_int *so)
{
    for (const time_t start = time(NULL); !*so && time(NULL) - start < 20;) {
    }
}

static void go_on(void)
{
    running = 1;
    await(&unmapped);
}

static void *run(void *unused)
{
#pragma acc data copy(b)
    {
#pragma acc exit data delete(b) finalize
#pragma acc parallel present(b)
        {
            go_on();
            b[0]++;
            b[3]++;
        }
    }
    return unused;
}

int main(void)
{
    static const int tens[4] = {10, 20, 30, 40};
    pthread_t kernel;

    there = (int *)acc_malloc(sizeof b);
    acc_memcpy_to_device(there, (void *)tens, sizeof tens);
    acc_map_data(b, there, sizeof b);
    pthread_create(&kernel, NULL, run, NULL);
    await(&running);
    for (int i = 0; i < 3; i++) {
        acc_unmap_data(i == 0 ? b : c);
        acc_map_data(c, there + i, sizeof c);
    }
    unmapped = 1;
    pthread_join(kernel, NULL);
    printf("%d %d %d %d, present: %d %d\n", b[0], b[1], b[2], b[3], acc_is_present(b, sizeof b),
           acc_is_present(c, sizeof c));
    return 0;
}
