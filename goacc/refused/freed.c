/* A directive on memory that was given back to the system. */
#include <stddef.h>
#include <sys/mman.h>

int main(void)
{
    const long n = 1 << 20;
    char *a = mmap(NULL, n, PROT_READ | PROT_WRITE, MAP_PRIVATE | MAP_ANONYMOUS, -1, 0);

    a[0] = 1;
#pragma acc enter data copyin(a[0:n])
    munmap(a, n);
#pragma acc update self(a[0:n])
    return 0;
}
