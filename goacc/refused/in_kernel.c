/* A routine that is called in a kernel. */
#include <openacc.h>

#pragma acc routine seq
static int __attribute__((noinline)) ask(int *p)
{
    return acc_is_present(p, 4);
}

int main(void)
{
    int answer = -1;

#pragma acc parallel copyout(answer)
    answer = ask(&answer);
    return answer;
}
