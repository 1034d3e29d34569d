/* A signal asks for the report, which the next call writes: what is mapped then stands there, and not before. */
#include <openacc.h>
#include <signal.h>
#include <stdio.h>
#include <stdlib.h>

static int a[4] __attribute__((aligned(16)));

static void show(void)
{
    FILE *file = fopen(getenv("LAMWIEST_REPORT"), "r");

    printf("%s\n", file != NULL ? "there is a report:" : "there is no report");
    for (int c; file != NULL && (c = getc(file)) != EOF;) {
        putchar(c);
    }
    if (file != NULL) {
        fclose(file);
    }
}

int main(void)
{
#pragma acc enter data copyin(a)
    raise(SIGUSR1);
    show();
    acc_is_present(a, sizeof a);
    show();
#pragma acc exit data delete(a)
    return 0;
}
