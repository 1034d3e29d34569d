/* Section 2.6.8: a pointer is detached when it was detached as often as attached; on the device it is the host's then.
   */
#include "show.h"

typedef struct list {
    long n;
    int *data;
} list;

static void look(const char *when, list *s, int *data)
{
    list there;

    acc_memcpy_from_device(&there, acc_deviceptr(s), sizeof there);
    printf("%s: %s\n", when,
           there.data == data ? "the host's" : there.data == acc_deviceptr(data) ? "the device's" : "none");
}

int main(void)
{
    int *data = malloc(2 * sizeof *data);
    list s = {1, data};

#pragma acc enter data copyin(s, data[0:2])
    look("before", &s, data);
    acc_attach((void **)&s.data);
    acc_attach((void **)&s.data);
    look("attached twice", &s, data);
    acc_detach((void **)&s.data);
    look("detached once", &s, data);
    acc_detach((void **)&s.data);
    look("detached twice", &s, data);
    acc_attach((void **)&s.data);
    acc_attach((void **)&s.data);
    acc_detach_finalize((void **)&s.data);
    look("detached at once", &s, data);
#pragma acc exit data delete(s, data[0:2])
    free(data);
    return 0;
}
