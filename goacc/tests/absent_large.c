/* Nothing is done with what is absent, however large it is; and nothing with a null pointer. */
#include "show.h"

int main(void)
{
    const long n = 1L << 30;
    char *big = malloc(n), *none = NULL;

#pragma acc update self(big[0:n]) if_present
#pragma acc exit data delete(big[0:n])
#pragma acc data no_create(big[0:n])
    printf("%d\n", acc_is_present(big, n));
    acc_delete(big, n);
#pragma acc enter data copyin(none[0:16])
#pragma acc update self(none[0:16]) if_present
#pragma acc data copy(none[0:16])
    printf("%d\n", acc_is_present(none, 16));
#pragma acc exit data delete(none[0:16])
    acc_delete(none, 16);
    free(big);
    return 0;
}
