/* The data clause of a region copies nothing out: `create` stands where `copyout` is meant, and `copyin` for `copy`. */
#include <stdio.h>

static int made[4], kept[4], dropped[4], copied[4];

int main(void)
{
    for (int i = 0; i < 4; i++) {
        kept[i] = copied[i] = i;
    }
#pragma acc data create(made, dropped) copyin(kept) copy(copied)
    {
#pragma acc parallel loop present(made, dropped, kept, copied)
        for (int i = 0; i < 4; i++) {
            dropped[i] = i;
            made[i] = dropped[i] + 5;
            kept[i] += 10;
            copied[i] += 10;
        }
    }
    printf("copied %d\n", copied[1]);
    printf("made %d\n", made[1]);
    printf("kept %d\n", kept[1]);
    return 0;
}
