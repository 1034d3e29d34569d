/* A kernel that is left by longjmp. */
#include <setjmp.h>

static jmp_buf back;
static int a[4] = {1};

static void __attribute__((noinline)) leave(int *p)
{
    if (p[0] == 1) {
        longjmp(back, 1);
    }
}

int main(void)
{
    if (setjmp(back) == 0) {
#pragma acc parallel copy(a)
        leave(a);
    }
#pragma acc enter data copyin(a)
    return 0;
}
