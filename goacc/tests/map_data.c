/* Section 3.2: acc_map_data maps memory of acc_malloc to an array, or parts of it, and acc_unmap_data ends that. */
#include "show.h"

static int a[4] = {1, 2, 3, 4};

static int tens[4] = {10, 20, 30, 40};

static void parts(void)
{
    int b[2] = {1, 2}, c[2] = {3, 4}, back[4], *there = acc_malloc(sizeof back);

    acc_memcpy_to_device(there, tens, sizeof tens);
    acc_map_data(b, there, sizeof b);
    acc_map_data(c, there + 2, sizeof c);
    printf("%d %d\n", acc_hostptr(there + 1) == b + 1, acc_hostptr(there + 3) == c + 1);
#pragma acc parallel loop present(b, c) deviceptr(there)
    for (int i = 0; i < 2; i++) {
        b[i]++;
        c[i] += there[i];
    }
    acc_unmap_data(b);
#pragma acc update self(c)
    numbers("updated", c, 2);
    acc_unmap_data(c);
    acc_memcpy_from_device(back, there, sizeof back);
    numbers("device", back, 4);
    acc_free(there);
}

/* The device memory stays, whatever counted what was mapped of it. */
static void held(void)
{
    int b[4] = {1, 2, 3, 4}, back[4], *there = acc_malloc(sizeof b);

    acc_memcpy_to_device(there, tens, sizeof tens);
    acc_map_data(b, there, sizeof b);
#pragma acc data copy(b)
    {
#pragma acc enter data copyin(b)
        acc_unmap_data(b);
        printf("%d\n", acc_is_present(b, sizeof b));
    }
    numbers("host", b, 4);
    acc_memcpy_from_device(back, there, sizeof back);
    numbers("device", back, 4);
    acc_free(there);
}

/* A copy that waits is of the device memory, also behind the end of the mapping. */
static void waits(void)
{
    int b[4] = {1, 2, 3, 4}, c[2] = {5, 6}, back[4], *there = acc_malloc(sizeof b);

    acc_memcpy_to_device(there, tens, sizeof tens);
    acc_map_data(b, there, sizeof b);
#pragma acc update device(b[0:2]) async(1)
#pragma acc update self(b[3:1]) async(1)
    acc_unmap_data(b);
    acc_map_data(c, there + 2, sizeof c);
#pragma acc wait(1)
    numbers("host", b, 4);
    acc_memcpy_from_device(back, there, sizeof back);
    numbers("device", back, 4);
    acc_unmap_data(c);
    acc_free(there);
}

int main(void)
{
    int *there = acc_malloc(sizeof a), back[4];

    acc_memcpy_to_device(there, tens, sizeof a);
    acc_map_data(a, there, sizeof a);
    printf("%d %d %d\n", acc_is_present(a, sizeof a), acc_deviceptr(a) == there, acc_hostptr(there + 1) == a + 1);
#pragma acc parallel loop copy(a)
    for (int i = 0; i < 4; i++) {
        a[i]++;
    }
    numbers("host", a, 4);
#pragma acc update self(a)
    numbers("updated", a, 4);
    acc_unmap_data(a);
    printf("%d\n", acc_is_present(a, sizeof a));
    acc_memcpy_from_device(back, there, sizeof back);
    numbers("device", back, 4);
    acc_free(there);
    parts();
    held();
    waits();
    return 0;
}
