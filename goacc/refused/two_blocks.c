/* exit data of a section that meets two mapped ones, the first of which an item of other bytes ends before it. */
static char a[64];

int main(void)
{
    char *p = a, *q = a;

#pragma acc enter data create(p[0:8])
#pragma acc enter data create(p[16:8])
#pragma acc exit data delete(q[6:12]) delete(p[0:4])
    return 0;
}
