/* Many arrays of one byte fit into little memory. */
#include "show.h"

int main(void)
{
    char *a;

    setenv("LAMWIEST_HOST", "32768", 1);
    setenv("LAMWIEST_DEVICE", "65536", 1);
    a = calloc(3000, 64);
    for (int i = 0; i < 3000; i++) {
        acc_create(a + 64 * i, 1);
    }
    printf("%d\n", acc_is_present(a + 64 * 2999, 1));
    for (int i = 0; i < 3000; i++) {
        acc_delete(a + 64 * i, 1);
    }
    free(a);
    return 0;
}
