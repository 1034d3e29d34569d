/* No byte of the program is written or read that the table does not copy: its memory may be read-only, or be given
   back, while a mapping that stays is counted down. */
#include "show.h"

#include <sys/mman.h>

enum { N = 1 << 14 };

int main(void)
{
    char *a = mmap(NULL, N, PROT_READ | PROT_WRITE, MAP_PRIVATE | MAP_ANONYMOUS, -1, 0), *q = a + N / 2, *r = a;

#pragma acc enter data copyin(a[0:N])
#pragma acc enter data copyin(a[0:N])
#pragma acc enter data copyin(a[0:N])
    mprotect(a, N, PROT_READ);
#pragma acc data copy(r[0:N / 2]) copy(q[0:N / 2])
    printf("read-only\n");
#pragma acc exit data copyout(r[0:N / 2]) copyout(q[0:N / 2]) async(1)
#pragma acc exit data delete(a[0:N])
    munmap(a, N);
#pragma acc wait(1)
    printf("given back\n");
    return 0;
}
