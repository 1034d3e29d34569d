/* Bytes of the device that no block has. */
#include <openacc.h>

int main(void)
{
    char a[16] = {0}, b[8];

    acc_copyin(a, sizeof a);
    acc_memcpy_from_device(b, (char *)acc_deviceptr(a) + 12, sizeof b);
    return 0;
}
