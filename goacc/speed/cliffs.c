/* What may grow with a program, by doubling: kernels beside mapped arrays, with and without device addresses out;
   constructs of many scalars; arrays mapped for a moment; copies that wait; large arrays. Prints microseconds of
   processor time. */
#define _GNU_SOURCE
#include <openacc.h>
#include <stdio.h>
#include <stdlib.h>
#include <string.h>
#include <time.h>

enum { MOST = 10000, BYTES = 64, LARGE = 1 << 20 };

static char *arrays[MOST];
static double started;

static double microseconds(void)
{
    struct timespec now;

    clock_gettime(CLOCK_PROCESS_CPUTIME_ID, &now);
    return 1e6 * now.tv_sec + 1e-3 * now.tv_nsec;
}

static void start(void)
{
    started = microseconds();
}

static void told(const char *what, int n, int times)
{
    printf("%s, %d: %.2f us\n", what, n, (microseconds() - started) / times);
    fflush(stdout);
}

static void kernels(const char *what, int n, int times)
{
    char *p = arrays[0];

    start();
    for (int i = 0; i < times; i++) {
#pragma acc parallel present(p[0:16])
        p[1]++;
    }
    told(what, n, times);
}

static void beside_arrays(void)
{
    int from = 0;

    for (int n = MOST / 8; n <= MOST; n *= 2) {
        for (; from < n; from++) {
            char *p = arrays[from];
#pragma acc enter data copyin(p[0:BYTES])
        }
        kernels("kernel beside arrays", n, 2000);
    }
    acc_deviceptr(arrays[MOST / 2]);
    kernels("the same behind one acc_deviceptr", MOST, 2000);
    for (int n = MOST / 8; n <= MOST; n *= 2) {
        for (int i = 0; i < n; i++) {
            acc_deviceptr(arrays[i]);
        }
        kernels("the same behind acc_deviceptr of as many", n, 20);
    }
    start();
    for (int i = 0; i < 2000; i++) {
        char *there = acc_deviceptr(arrays[i]);

        acc_memcpy_from_device(arrays[i], there, 16);
    }
    told("acc_memcpy_from_device beside arrays", MOST, 2000);
    for (int i = 0; i < MOST; i++) {
        char *p = arrays[i];
#pragma acc exit data delete(p[0:BYTES])
    }
}

#define TEN(x) x##0, x##1, x##2, x##3, x##4, x##5, x##6, x##7, x##8, x##9
#define SUM(x) x##0 + x##1 + x##2 + x##3 + x##4 + x##5 + x##6 + x##7 + x##8 + x##9

static void scalars(void)
{
    volatile int one = 1;
    int a0 = one, a1 = one, a2 = one, a3 = one, a4 = one, a5 = one, a6 = one, a7 = one, a8 = one, a9 = one;
    int b0 = one, b1 = one, b2 = one, b3 = one, b4 = one, b5 = one, b6 = one, b7 = one, b8 = one, b9 = one;
    int c0 = one, c1 = one, c2 = one, c3 = one, c4 = one, c5 = one, c6 = one, c7 = one, c8 = one, c9 = one;
    int sum = 0;

    start();
    for (int i = 0; i < 2000; i++) {
#pragma acc parallel copyin(TEN(a)) copyout(sum)
        sum = SUM(a);
    }
    told("scalars in one construct", 10, 2000);
    start();
    for (int i = 0; i < 2000; i++) {
#pragma acc parallel copyin(TEN(a), TEN(b), TEN(c)) copyout(sum)
        sum = SUM(a) + SUM(b) + SUM(c);
    }
    told("scalars in one construct", 30, 2000);
    start();
    for (int i = 0; i < 2000; i++) {
#pragma acc parallel copyout(sum)
        sum = SUM(a) + SUM(b) + SUM(c);
    }
    told("scalars that no clause names", 30, 2000);
    if (sum != 30) {
        printf("sum %d\n", sum);
    }
}

static void for_a_moment(void)
{
    const int most = 240000;
    char *all = malloc((size_t)most * 128);
    int from = 0;

    for (int n = most / 8; n <= most; n *= 2) {
        const int first = from;

        start();
        for (; from < n; from++) {
            char *p = all + 128 * (size_t)from;
#pragma acc enter data create(p[0:BYTES])
#pragma acc exit data delete(p[0:BYTES])
        }
        told("a pair of arrays mapped for a moment", n, n - first);
    }
    free(all);
}

static void waiting(void)
{
    for (int n = 64; n <= 256; n *= 2) {
        char *p = arrays[0];
#pragma acc enter data copyin(p[0:BYTES])
        start();
        for (int round = 0; round < 20; round++) {
            for (int i = 0; i < n; i++) {
#pragma acc update self(p[0:BYTES]) async(1)
            }
            while (!acc_async_test(1)) {
            }
        }
        told("a copy put and polled away, of", n, 20 * n);
#pragma acc exit data delete(p[0:BYTES])
    }
}

static void large(int bytes)
{
    char *p = malloc(bytes);

    memset(p, 1, bytes);
    start();
    for (int i = 0; i < 100; i++) {
#pragma acc enter data copyin(p[0:bytes])
#pragma acc exit data delete(p[0:bytes])
    }
    told("copyin and delete of bytes", bytes, 100);
#pragma acc enter data copyin(p[0:bytes])
    start();
    for (int i = 0; i < 100; i++) {
#pragma acc parallel present(p[0:bytes])
        p[0]++;
    }
    told("kernel on bytes", bytes, 100);
    start();
    for (int i = 0; i < 100; i++) {
#pragma acc update self(p[0:bytes])
    }
    told("update self of bytes", bytes, 100);
    start();
    for (int i = 0; i < 100; i++) {
#pragma acc update device(p[0:bytes])
    }
    told("update device of bytes", bytes, 100);
#pragma acc exit data delete(p[0:bytes])
    free(p);
}

int main(void)
{
    for (int i = 0; i < MOST; i++) {
        arrays[i] = calloc(1, BYTES);
    }
    beside_arrays();
    scalars();
    for_a_moment();
    waiting();
    for (int bytes = LARGE / 8; bytes <= LARGE; bytes *= 2) {
        large(bytes);
    }
    return 0;
}
