/* Section 2.6.3: sections that are mapped at one time and at another, of the same memory, are strangers. So is memory
   that malloc gives again. Sections that touch are two mappings. */
#include "show.h"

static int m[100];

static void present(const char *when)
{
    printf("%s:", when);
    for (int i = 0; i < 100; i += 10) {
        printf(" %d", acc_is_present(m + i, 10 * sizeof *m));
    }
    printf(", whole %d\n", acc_is_present(m, sizeof m));
}

int main(void)
{
    for (int i = 0; i < 100; i++) {
        m[i] = i;
    }
#pragma acc enter data create(m[0:50])
    present("the first half");
#pragma acc exit data delete(m[0:50])
#pragma acc enter data copyin(m[10:20])
#pragma acc enter data copyin(m[40:60])
    present("two parts");
    device("the second", m + 40, 3);
#pragma acc exit data delete(m[40:60])
#pragma acc enter data copyin(m[30:20])
    present("another, which touches the first");
#pragma acc exit data delete(m[10:20])
#pragma acc enter data copyin(m[0:30])
    present("one more before it");
    device("it", m + 10, 3);
#pragma acc exit data delete(m[0:30])
#pragma acc exit data delete(m[30:20])
#pragma acc enter data copyin(m)
    present("whole");
#pragma acc exit data delete(m)
    return 0;
}
