/* Chapter 4: ACC_DEVICE_TYPE chooses the device of each thread, until it chooses another one. */
#include "show.h"

int main(void)
{
    int a[2] = {1, 2};

    setenv("ACC_DEVICE_TYPE", "HOST", 1);
#pragma acc enter data copyin(a)
#pragma acc parallel
    a[0] = 5;
    numbers("on the host", a, 2);
    printf("host %d\n", acc_get_device_type() == acc_device_host);
    acc_set_device_type(acc_device_not_host);
    device("on the device", a, 2);
#pragma acc parallel copyin(a)
    a[0] = 6;
    numbers("on the device", a, 2);
    return 0;
}
