/* A pointer in a packed structure, at no multiple of 8. */
#include <stddef.h>

#pragma pack(1)
static struct {
    char c;
    float *p;
} s __attribute__((aligned(8)));
#pragma pack()

int main(void)
{
    static float a[4];

    s.p = a;
#pragma acc enter data copyin(s) copyin(s.p[0:4])
    return 0;
}
