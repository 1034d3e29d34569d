/* Each kind of line that LAMWIEST_LOG=1 writes, the refusal last. */
#include <openacc.h>

static int a[4], b[8], c[2];
static struct {
    long n;
    int *p;
} s = {1, b};

static void regions(void)
{
#pragma acc data copy(a)
    {
#pragma acc enter data copyin(a)
#pragma acc exit data copyout(a)
#pragma acc exit data copyout(a)
    }
#pragma acc data no_create(c)
    c[0]++;
#pragma acc exit data delete(a)
}

static void queues(void)
{
#pragma acc enter data copyin(b) async(1)
#pragma acc update self(b[2:2]) async(1)
#pragma acc wait(1)
#pragma acc wait(1)
}

static void pointers(void)
{
#pragma acc enter data copyin(s)
    acc_attach((void **)&s.p);
    acc_attach((void **)&s.p);
    acc_detach((void **)&s.p);
    acc_detach_finalize((void **)&s.p);
    acc_detach((void **)&s.p);
}

int main(void)
{
    regions();
    queues();
    pointers();
#pragma acc update device(b)
#pragma acc update self(c) if_present
#pragma acc exit data delete(b) finalize
#pragma acc parallel loop copy(c)
    for (int i = 0; i < 2; i++) {
        c[i]++;
    }
#pragma acc exit data copyout(s) async(2)
#pragma acc data present(b)
    c[0]++;
    return 0;
}
