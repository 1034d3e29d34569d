/* Keeps 10,000 arrays of 64 bytes mapped, and makes 100,000 pairs of enter data and exit data over one of the mapped
   arrays, and as many over one that is not mapped. Prints the nanoseconds of processor time that a pair took, in which
   other work on the machine counts less. */
#define _GNU_SOURCE
#include <openacc.h>
#include <stdio.h>
#include <stdlib.h>
#include <time.h>

enum { ARRAYS = 10000, PAIRS = 100000, BYTES = 64 };

static char *arrays[ARRAYS], *others[ARRAYS];

static double seconds(void)
{
    struct timespec now;

    clock_gettime(CLOCK_PROCESS_CPUTIME_ID, &now);
    return now.tv_sec + 1e-9 * now.tv_nsec;
}

static void make_pairs(const char *what, char **list)
{
    double start = seconds();
    unsigned at = 1;

    for (int i = 0; i < PAIRS; i++) {
        char *p;

        at = (at * 1103515245u + 12345u) & 0x7fffffffu;
        p = list[at / 16 % ARRAYS];
#pragma acc enter data copyin(p[0:BYTES])
#pragma acc exit data copyout(p[0:BYTES])
    }
    printf("%s: %.0f ns a pair\n", what, 1e9 * (seconds() - start) / PAIRS);
}

int main(void)
{
    double start;

    for (int i = 0; i < ARRAYS; i++) {
        arrays[i] = calloc(1, BYTES);
        others[i] = calloc(1, BYTES);
    }
    start = seconds();
    for (int i = 0; i < ARRAYS; i++) {
        char *p = arrays[i];
#pragma acc enter data copyin(p[0:BYTES])
    }
    printf("to map %d arrays: %.0f ns each\n", ARRAYS, 1e9 * (seconds() - start) / ARRAYS);
    make_pairs("mapped", arrays);
    make_pairs("not mapped", others);
    start = seconds();
    for (int i = 0; i < ARRAYS; i++) {
        char *p = arrays[i];
#pragma acc exit data delete(p[0:BYTES])
    }
    printf("to end %d mappings: %.0f ns each\n", ARRAYS, 1e9 * (seconds() - start) / ARRAYS);
    return 0;
}
