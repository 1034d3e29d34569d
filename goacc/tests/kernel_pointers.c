/* Section 2.6.8: an attached pointer keeps what a kernel or acc_memcpy_to_device sets it to: a tag, null, or the device
   address of another array. */
#include "show.h"

typedef struct list {
    double *p;
    long n;
} list;

int main(void)
{
    double x[8] = {0}, y[4] = {7};
    list s = {x, 8}, back, *on_device;
    unsigned long tag = 0, null = 1;
    void *other = (void *)0x1234;

#pragma acc enter data copyin(s) copyin(s.p[2:4]) copyin(y)
#pragma acc parallel present(s)
    s.p = (double *)0x1234;
#pragma acc parallel present(s) copyout(tag)
    tag = (unsigned long)s.p;
#pragma acc parallel present(s)
    s.p = NULL;
#pragma acc parallel present(s) copyout(null)
    null = (unsigned long)s.p;
    printf("tag %#lx, null %lu\n", tag, null);
    on_device = acc_deviceptr(&s);
    acc_memcpy_to_device(&on_device->p, &other, sizeof other);
    acc_memcpy_from_device(&back, on_device, sizeof back);
    printf("tag %p\n", (void *)back.p);
#pragma acc parallel present(s, y)
    s.p = y;
#pragma acc parallel present(s)
    s.p[0] += s.n;
#pragma acc exit data copyout(y) copyout(s)
    printf("%g, pointer %d\n", y[0], s.p == x);
#pragma acc exit data delete(s, x[2:4]) finalize
    return 0;
}
