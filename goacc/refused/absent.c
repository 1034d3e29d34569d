/* present of an array that is not mapped. */
int main(void)
{
    int a[4] = {0};

#pragma acc data present(a)
    {
        a[0] = 1;
    }
    return 0;
}
