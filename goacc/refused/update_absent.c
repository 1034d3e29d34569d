/* update of an array that is mapped no longer: exit data was made twice, and the second is none. */
int main(void)
{
    int a[4] = {0};

#pragma acc enter data copyin(a)
#pragma acc exit data copyout(a)
#pragma acc exit data copyout(a)
#pragma acc update self(a)
    return 0;
}
