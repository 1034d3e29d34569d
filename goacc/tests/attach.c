/* Sections 2.6.8 and 2.7.2: an attached pointer leads to the device's bytes. Copies leave it as it is: OpenACC leaves
   that open. */
#include "show.h"

typedef struct list {
    int n;
    int *data;
} list;

int main(void)
{
    list s = {3, malloc(3 * sizeof(int))};
    int *data = s.data;

    for (int i = 0; i < 3; i++) {
        data[i] = i + 1;
    }
#pragma acc enter data copyin(s)
#pragma acc enter data copyin(s.data[0:3])
#pragma acc parallel loop present(s)
    for (int i = 0; i < 3; i++) {
        s.data[i] *= s.n;
    }
    numbers("host", data, 3);
    device("device", data, 3);
#pragma acc update self(s)
    printf("pointer of the host %s\n", s.data == data ? "stays" : "is lost");
#pragma acc update device(s)
#pragma acc parallel loop present(s)
    for (int i = 0; i < 3; i++) {
        s.data[i] += 1;
    }
#pragma acc exit data copyout(s.data[0:3])
#pragma acc exit data copyout(s)
    numbers("host at the end", data, 3);
    printf("pointer of the host %s\n", s.data == data ? "stays" : "is lost");
    free(data);
    return 0;
}
