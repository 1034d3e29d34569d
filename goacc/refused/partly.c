/* A section of which a part alone is mapped. */
int main(void)
{
    int a[8] = {0};

#pragma acc enter data copyin(a[2:4])
#pragma acc data copy(a[4:4])
    {
        a[0] = 1;
    }
    return 0;
}
