/* Signals of the program: a timer, its own handler of SIGSEGV on its own stack, a child and a command. All do as without
   a check, while its stack and its arrays have stale bytes. */
#define _GNU_SOURCE
#include <setjmp.h>
#include <signal.h>
#include <stdio.h>
#include <stdlib.h>
#include <sys/time.h>
#include <sys/wait.h>
#include <unistd.h>

static int a[100];
static char own_bytes[65536];
static volatile int times;
static sigjmp_buf back;
static char *volatile nowhere = (char *)8;

static void count(int signal)
{
    (void)signal;
    times++;
}

static void leave(int signal)
{
    siglongjmp(back, signal);
}

static void kernel(int *local)
{
#pragma acc parallel loop present(a, local[0:50])
    for (int i = 0; i < 50; i++) {
        local[i] += 1;
        a[2 * i] += 1;
    }
}

int main(void)
{
    const struct itimerval often = {{0, 2000}, {0, 2000}}, never = {{0, 0}, {0, 0}};
    stack_t own = {own_bytes, 0, sizeof own_bytes}, now;
    struct sigaction action = {};
    int local[50] = {0}, status, begun;

#pragma acc enter data copyin(a, local)
    action.sa_handler = leave;
    action.sa_flags = SA_ONSTACK;
    sigaltstack(&own, NULL);
    sigaction(SIGSEGV, &action, NULL);
    if (sigsetjmp(back, 1) == 0) {
        kernel(local);
        *nowhere = 1;
    }
    sigaltstack(NULL, &now);
    printf("own handler, own stack %d\n", now.ss_sp == own.ss_sp);

    signal(SIGALRM, count);
    setitimer(ITIMER_REAL, &often, NULL);
    kernel(local);
    begun = times;
    for (int i = 0; i < 10000000 && times < begun + 5; i++) {
        a[1]++;
    }
    kernel(local);
    while (pause() == -1 && times < begun + 10) {
    }
    setitimer(ITIMER_REAL, &never, NULL);
    printf("timer, %d\n", times >= 10 && a[1] > 0);

    kernel(local);
    fflush(stdout);
    if (fork() == 0) {
        _exit(local[7] + a[2] + 5);
    }
    wait(&status);
    printf("child %d\n", WEXITSTATUS(status));
    kernel(local);
    fflush(stdout);
    status = system("echo command");
    printf("%d\n", status);
#pragma acc exit data delete(a, local)
    return 0;
}
