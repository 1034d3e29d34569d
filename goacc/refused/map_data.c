/* acc_map_data of what acc_malloc did not give. */
#include <openacc.h>

int main(void)
{
    char a[16], b[16];

    acc_map_data(a, acc_copyin(b, sizeof b), sizeof a);
    return 0;
}
