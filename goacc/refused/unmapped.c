/* acc_free of memory that a data region holds, which was mapped when that was entered. */
#include <openacc.h>

static int a[4];

int main(void)
{
    void *there = acc_malloc(sizeof a);

    acc_map_data(a, there, sizeof a);
#pragma acc data copy(a)
    {
        acc_unmap_data(a);
        acc_free(there);
    }
    return 0;
}
