/* A section that begins before a mapped one, and ends behind it. */
int main(void)
{
    int a[8] = {0};

#pragma acc enter data copyin(a[2:4])
#pragma acc enter data create(a)
    return 0;
}
