/* How sections are named: elements, rows, members, and bytes that are no whole elements; also of a caller. */
#include <openacc.h>

static double rows[3][4];
static struct cell {
    long number;
    double v[3];
} cells[4];

static volatile int taken;

/* The last call of a function may be a jump, which seems a call of its caller. */
static void __attribute__((noinline)) take(void *at, int len)
{
    acc_copyin(at, len);
    acc_delete(at, len);
    taken++;
}

int main(void)
{
    struct cell own[2] = {{1, {0}}, {2, {0}}};
    short odd[6] = {0};

#pragma acc enter data copyin(rows[1:2])
#pragma acc exit data delete(rows[1:2])
#pragma acc enter data copyin(cells[2].v)
#pragma acc exit data delete(cells[2].v)
    take(&own[1], sizeof own[1]);
    take(&own[1].v[1], 16);
    take((char *)odd + 1, 4);
    take((char *)odd + 9, 1);
    return 0;
}
