/* declare present of an array that is not mapped. */
static int use(void)
{
    int b[4] = {1, 2, 3, 4};
#pragma acc declare present(b)

    return b[0];
}

int main(void)
{
    return use();
}
