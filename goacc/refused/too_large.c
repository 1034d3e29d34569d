/* An array larger than the table's host memory. */
#include <stdlib.h>

int main(void)
{
    const long n = 1L << 30;
    char *a = malloc(n);

#pragma acc enter data create(a[0:n])
    free(a);
    return 0;
}
