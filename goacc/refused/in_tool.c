/* A tool needs a block of another thread's kernel, which ends behind what tools are told of its end. */
#include <acc_prof.h>
#include <openacc.h>
#include <pthread.h>
#include <stdatomic.h>
#include <time.h>

static atomic_int running;
static int a[4];

static void run_on(void)
{
    running = 1;
    for (const time_t start = time(NULL); time(NULL) - start < 20;) {
    }
}

static void *run(void *unused)
{
#pragma acc parallel copy(a)
    {
        run_on();
        a[0] = 1;
    }
    return unused;
}

static void copy(acc_prof_info *info, acc_event_info *event, acc_api_info *api)
{
    int there[4];

    acc_memcpy_from_device(there, acc_deviceptr(a), sizeof there);
}

void acc_register_library(acc_prof_reg reg, acc_prof_reg unreg, acc_prof_lookup_func lookup)
{
    reg(acc_ev_update_start, copy, acc_reg);
}

int main(void)
{
    pthread_t kernel;
    int b = 1;

#pragma acc enter data copyin(b)
    pthread_create(&kernel, NULL, run, NULL);
    while (!running) {
    }
#pragma acc update self(b)
    return 0;
}
