/* Copies that nobody waited for are told where no mapping is left. */
#include "show.h"

static int c[3] = {1, 2, 3};

int main(void)
{
#pragma acc enter data copyin(c)
#pragma acc exit data copyout(c) async(2)
    numbers("not waited for", c, 3);
    return 0;
}
