/* A thread that ends in a data region. */
#include <pthread.h>

static int y[4];

static void *work(void *unused)
{
#pragma acc data copyin(y)
    pthread_exit(unused);
}

int main(void)
{
    pthread_t thread;

    pthread_create(&thread, NULL, work, NULL);
    pthread_join(thread, NULL);
    return 0;
}
