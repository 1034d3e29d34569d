/* A program that sees itself that its numbers are wrong, and ends by abort, is told before. */
#include <stdio.h>
#include <stdlib.h>

static long n[2];

int main(void)
{
#pragma acc data copyin(n)
    {
#pragma acc serial present(n)
        n[1] = 1;
        if (n[1] != 1) {
            abort();
        }
    }
    return 0;
}
