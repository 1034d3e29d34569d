/* Section 2.8: host_data gives the program device addresses, and a kernel takes them as deviceptr. */
#include "show.h"

static void fill(int *there, int n)
{
#pragma acc parallel loop deviceptr(there)
    for (int i = 0; i < n; i++) {
        there[i] = i * i;
    }
}

int main(void)
{
    int a[4] = {9, 9, 9, 9};
    int *own = acc_malloc(2 * sizeof *own);
    int two[2] = {21, 22};

#pragma acc data copy(a)
    {
#pragma acc host_data use_device(a)
        fill(a, 4);
        numbers("host", a, 4);
    }
    numbers("host at the end", a, 4);
    acc_memcpy_to_device(own, two, sizeof two);
    fill(own + 1, 1);
    acc_memcpy_from_device(two, own, sizeof two);
    numbers("acc_malloc", two, 2);
    acc_free(own);
    return 0;
}
