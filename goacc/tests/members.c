/* Section 2.7.1: members of a structure are mapped, with the pointer among them and the array that it points into. */
#include "show.h"

typedef struct list {
    int n;
    int *data;
    int last;
} list;

int main(void)
{
    list s = {4, malloc(6 * sizeof(int)), 0};
    int *data = s.data;

    for (int i = 0; i < 6; i++) {
        data[i] = i;
    }
#pragma acc enter data copyin(s.n, s.data[2:4])
#pragma acc parallel loop present(s.n, s.data[2:4])
    for (int i = 2; i < 6; i++) {
        s.data[i] += 10 * s.n;
    }
    numbers("host", data, 6);
    device("device", data + 2, 4);
#pragma acc exit data copyout(s.n, s.data[2:4])
    numbers("host at the end", data, 6);
    printf("n %d, present %d, pointer %d\n", s.n, acc_is_present(&s.n, sizeof s.n), s.data == data);
    free(data);
    return 0;
}
