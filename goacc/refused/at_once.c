/* Threads that are refused at once, while others go on: one refusal is told, and exit handlers run once. */
#include <pthread.h>
#include <stdio.h>
#include <stdlib.h>
#include <unistd.h>

static int absent[8][4], own[4][100];

static void handler(void)
{
    fprintf(stderr, "handler\n");
}

static void *refused(void *at)
{
    int *a = at;

#pragma acc update self(a[0:4])
    return at;
}

static void *work(void *at)
{
    int *a = at;

    while (1) {
#pragma acc enter data copyin(a[0:100])
#pragma acc parallel present(a[0:100])
        a[0]++;
#pragma acc exit data copyout(a[0:100])
    }
    return at;
}

int main(void)
{
    pthread_t thread;

    atexit(handler);
    for (int i = 0; i < 4; i++) {
        pthread_create(&thread, NULL, work, own[i]);
    }
    usleep(10000);
    for (int i = 0; i < 8; i++) {
        pthread_create(&thread, NULL, refused, absent[i]);
    }
    pause();
    return 0;
}
