/* A type of device that is not there. */
#include <openacc.h>

int main(void)
{
    acc_init(acc_device_nvidia);
    return 0;
}
