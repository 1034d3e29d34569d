/* A kernel that ends the program, whose exit handler has a directive. */
#include <stdlib.h>

static int x[4];

static void handler(void)
{
#pragma acc exit data delete(x)
}

int main(void)
{
    atexit(handler);
#pragma acc enter data copyin(x)
#pragma acc parallel present(x)
    if (x[0] == 0) {
        exit(3);
    }
    return 0;
}
