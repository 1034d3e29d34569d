/* acc_copyin of no array. */
#include <openacc.h>

int main(void)
{
    acc_copyin(0, 16);
    return 0;
}
