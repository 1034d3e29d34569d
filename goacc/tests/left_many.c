/* Of many mappings that are left ten are told, and how many more there are; memory of acc_malloc is one. */
#include <openacc.h>

int main(void)
{
    for (int i = 0; i < 13; i++) {
        acc_malloc(24);
    }
    return 0;
}
