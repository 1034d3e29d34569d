/* A directive that is refused in an exit handler, behind one that is refused. */
#include <stdlib.h>

static int y[4];

static void handler(void)
{
#pragma acc update self(y[0:2])
}

int main(void)
{
    atexit(handler);
#pragma acc update self(y)
    return 0;
}
