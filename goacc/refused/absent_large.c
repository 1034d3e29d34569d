/* present of an array that is larger than the table's host memory. */
#include <stdlib.h>

int main(void)
{
    const long n = 1L << 30;
    char *a = malloc(n);

#pragma acc data present(a[0:n])
    a[0] = 1;
    free(a);
    return 0;
}
