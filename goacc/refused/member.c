/* present of a member that is not mapped, beside one that is copied. */
int main(void)
{
    struct { int a, b, c; } s = {1, 2, 3};

#pragma acc data present(s.a) copyin(s.c)
    s.b = 1;
    return 0;
}
