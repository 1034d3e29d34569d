/* Section 3.2: the address that acc_copyin and acc_create answer is a device address, also in a structure or a list on
   the device, and as a number of a kernel's own. */
#include "show.h"

typedef struct one {
    float *p;
} one;

static void in_a_structure(void)
{
    float a[4] = {0};
    one s = {a}, *on_device;
    float *there = acc_copyin(a, sizeof a);

    on_device = acc_copyin(&s, sizeof s);
    acc_memcpy_to_device(&on_device->p, &there, sizeof there);
#pragma acc parallel present(s)
    s.p[0] = 1;
    acc_copyout(a, sizeof a);
    acc_delete(&s, sizeof s);
    printf("%g\n", a[0]);
}

static void as_a_number(void)
{
    float a[4] = {5, 6, 7, 8}, got = 0;
    float *there = acc_copyin(a, sizeof a);

#pragma acc parallel copyout(got)
    {
        got = there[1];
        there[0] = 1;
    }
    acc_copyout(a, sizeof a);
    printf("%g %g\n", got, a[0]);
}

static void in_a_list(void)
{
    double x[2] = {1, 2}, y[2] = {3, 4}, sum = 0, *rows[2];
    double **on_device = acc_create(rows, sizeof rows);
    double *list[2];

    list[0] = acc_copyin(x, sizeof x);
    list[1] = acc_copyin(y, sizeof y);
    acc_memcpy_to_device(on_device, list, sizeof list);
#pragma acc parallel present(rows) copyout(sum)
    {
        sum = 0;
        for (int i = 0; i < 4; i++) {
            sum += rows[i / 2][i % 2];
        }
    }
    printf("%g\n", sum);
    acc_delete(rows, sizeof rows);
    acc_delete(x, sizeof x);
    acc_delete(y, sizeof y);
}

int main(void)
{
    in_a_structure();
    as_a_number();
    in_a_list();
    return 0;
}
