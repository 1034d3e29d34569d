/* What the test programs print: the host's and the device's numbers of an array. */
#ifndef SHOW_H
#define SHOW_H

#include <openacc.h>
#include <stdio.h>
#include <stdlib.h>

static inline void numbers(const char *name, const int *a, int n)
{
    printf("%s:", name);
    for (int i = 0; i < n; i++) {
        printf(" %d", a[i]);
    }
    printf("\n");
}

/* The device's numbers, by acc_memcpy_from_device, or that the array is absent. */
static inline void device(const char *name, int *a, int n)
{
    int *there = acc_is_present(a, n * sizeof *a) ? acc_deviceptr(a) : NULL;
    int bytes[64];

    if (there == NULL) {
        printf("%s: absent\n", name);
        return;
    }
    acc_memcpy_from_device(bytes, there, n * sizeof *a);
    numbers(name, bytes, n);
}

#endif
