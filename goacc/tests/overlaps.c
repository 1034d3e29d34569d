/* Sections of one array that a directive names together, or that are mapped one after the other, beside another array:
   each is mapped by itself, and no byte of the other changes. */
#include "show.h"

static char a[200], b[200];

int main(void)
{
    char *inner = a, *outer = a, *edge = a, *tail = a;
    int got = -1, changed = 0;

    for (int i = 0; i < 200; i++) {
        a[i] = i % 100;
        b[i] = 100;
    }
#pragma acc data copyin(inner[10:10]) no_create(outer[0:100])
    {
#pragma acc enter data copyin(b)
#pragma acc enter data copyin(edge[90:20])
        printf("tail present: %d\n", acc_is_present(a + 130, 20));
#pragma acc enter data copyin(tail[130:20])
#pragma acc parallel present(tail[130:20]) copyout(got)
        {
            got = tail[130];
            tail[131] = 77;
        }
#pragma acc exit data copyout(tail[130:20])
#pragma acc exit data copyout(b)
    }
    for (int i = 0; i < 200; i++) {
        changed += b[i] != 100;
    }
    printf("kernel read %d, wrote %d, changed in the other array: %d\n", got, a[131], changed);
#pragma acc exit data delete(edge[90:20])
    return 0;
}
