/* A device that is not there. */
#include <openacc.h>

int main(void)
{
    acc_set_device_num(4, acc_device_default);
    return 0;
}
