/* More bytes than there are addresses. */
#include <openacc.h>
#include <stdint.h>

int main(void)
{
    char y[64] = {0}, *there = acc_copyin(y, sizeof y);

    acc_memcpy_to_device(there + 16, y, SIZE_MAX - 7);
    return 0;
}
