/* Chapter 4: with ACC_DEVICE_TYPE the devices are of the type that it names. A kernel asks on which one it is. */
#include "show.h"

/* Through a pointer, since gcc would answer itself; of C++ to the function that openacc.h wraps. */
#pragma acc routine seq
static int is_on(acc_device_t type)
{
    int (*volatile ask)(int) = (int (*)(int))acc_on_device;

    return ask(type);
}

static void show(const char *name)
{
    int host = -1, not_host = -1, nvidia = -1, radeon = -1;

#pragma acc parallel copyout(host, not_host, nvidia, radeon)
    {
        host = is_on(acc_device_host);
        not_host = is_on(acc_device_not_host);
        nvidia = is_on(acc_device_nvidia);
        radeon = is_on(acc_device_radeon);
    }
    printf("%s: host %d, not_host %d, nvidia %d, radeon %d\n", name, host, not_host, nvidia, radeon);
}

int main(void)
{
    setenv("ACC_DEVICE_TYPE", "Nvidia", 1);
    acc_init(acc_device_nvidia);
    printf("nvidia %d, radeon %d\n", acc_get_num_devices(acc_device_nvidia), acc_get_num_devices(acc_device_radeon));
    printf("chosen: %d\n", acc_get_device_type() == acc_device_nvidia);
    show("in a kernel");
    acc_set_device_type(acc_device_host);
    show("on the host");
    acc_set_device_num(0, acc_device_nvidia);
    show("in a kernel again");
    setenv("ACC_DEVICE_TYPE", "radeon", 1);
    printf("nvidia %d, radeon %d\n", acc_get_num_devices(acc_device_nvidia), acc_get_num_devices(acc_device_radeon));
    return 0;
}
