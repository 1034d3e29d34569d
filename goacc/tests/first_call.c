/* Each of these routines may be the first call of a program. With an argument, its name, it is the only one. */
#include "show.h"

#include <string.h>

static const char *only;

static int is_asked(const char *name)
{
    return only == NULL || strcmp(only, name) == 0;
}

int main(int argc, char **argv)
{
    /* Through a pointer, since gcc would answer itself; of C++ to the function that openacc.h wraps. */
    int (*volatile is_on)(int) = (int (*)(int))acc_on_device;
    int a[2] = {1, 2};

    only = argc > 1 ? argv[1] : NULL;
    if (is_asked("acc_get_num_devices")) {
        printf("devices: %d\n", acc_get_num_devices(acc_device_not_host));
    }
    if (is_asked("acc_get_device_type")) {
        printf("on a device: %d\n", acc_get_device_type() == acc_device_not_host);
    }
    if (is_asked("acc_get_property_string")) {
        printf("named: %d\n", acc_get_property_string(0, acc_device_not_host, acc_property_name) != NULL);
    }
    if (is_asked("acc_on_device")) {
        printf("on the host: %d\n", is_on(acc_device_host));
    }
    if (is_asked("acc_malloc")) {
        acc_free(acc_malloc(16));
    }
    if (only == NULL) {
#pragma acc enter data copyin(a)
        device("a", a, 2);
#pragma acc exit data delete(a)
    }
    return 0;
}
