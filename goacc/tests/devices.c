/* Sections 3.2 and 4: each device has data of its own, and a region ends on the device on which it began. */
#include "show.h"

static void use(int number)
{
    acc_set_device_num(number, acc_device_not_host);
    printf("device %d\n", acc_get_device_num(acc_device_not_host));
}

int main(void)
{
    int a[2] = {1, 2};

    setenv("ACC_DEVICE_NUM", "2", 1);
    printf("%d devices, first %d\n", acc_get_num_devices(acc_device_not_host), acc_get_device_num(acc_device_not_host));
#pragma acc enter data copyin(a)
    use(1);
    printf("present %d\n", acc_is_present(a, sizeof a));
    a[0] = 10;
#pragma acc data copy(a)
    {
#pragma acc parallel present(a)
        a[1] += 100;
#pragma acc update self(a[1:1]) async(3)
        use(3);
        printf("present %d, waits %d\n", acc_is_present(a, sizeof a), !acc_async_test(3));
    }
    numbers("host", a, 2);
    use(1);
    printf("present %d, waits %d\n", acc_is_present(a, sizeof a), !acc_async_test(3));
    use(2);
    device("still", a, 2);
#pragma acc exit data copyout(a)
    numbers("host", a, 2);
    printf("free %d\n", acc_get_property(0, acc_device_not_host, acc_property_free_memory)
                            == acc_get_property(0, acc_device_not_host, acc_property_memory));
    printf("the host: %s %s %s\n", acc_get_property_string(0, acc_device_host, acc_property_vendor),
           acc_get_property_string(0, acc_device_host, acc_property_name),
           acc_get_property_string(0, acc_device_host, acc_property_driver));
    return 0;
}
