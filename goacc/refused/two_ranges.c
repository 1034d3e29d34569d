/* exit data of a section that meets two mapped ones, the first of which an item before it ends. */
static char a[64];

int main(void)
{
    char *p = a, *q = a;

#pragma acc enter data create(p[0:8])
#pragma acc enter data create(p[16:8])
#pragma acc exit data delete(q[4:16]) copyout(p[0:8])
    return 0;
}
