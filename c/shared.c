/*
 * A table for several threads: a lock round it, and a wait for what another thread brings back. The table is the proved
 * one; that these calls keep threads apart is not proved.
 */
#define _POSIX_C_SOURCE 200809L
#include "lamwiest.h"
#include <pthread.h>
#include <stdlib.h>

struct lw_shared {
    pthread_mutex_t lock;
    pthread_cond_t changed;
    lw_table table;
    uint64_t events; /* of which those that wait have been told */
};

/* A thread that has the lock already is told so. */
static int begin_lock(pthread_mutex_t *lock)
{
    pthread_mutexattr_t kind;
    int error = pthread_mutexattr_init(&kind);

    if (error == 0) {
        pthread_mutexattr_settype(&kind, PTHREAD_MUTEX_ERRORCHECK);
        error = pthread_mutex_init(lock, &kind);
        pthread_mutexattr_destroy(&kind);
    }
    return error;
}

/* Ends what is begun of it, and says that there was no memory for the rest. */
static uint32_t give_up(lw_shared *begun, lw_fault *fault)
{
    if (begun != NULL) {
        lw_table_end(&begun->table);
        free(begun);
    }
    if (fault != NULL) {
        *fault = (lw_fault){.status = LW_MEMORY};
    }
    return LW_MEMORY;
}

uint32_t lw_shared_new(lw_shared **shared, const lw_limits *limits, lw_fault *fault)
{
    lw_shared *begun = calloc(1, sizeof *begun);
    uint32_t status;

    if (begun == NULL) {
        return give_up(begun, fault);
    }
    status = lw_table_new(&begun->table, limits, fault);
    if (status != LW_DONE) {
        free(begun);
        return status;
    }
    if (begin_lock(&begun->lock) != 0) {
        return give_up(begun, fault);
    }
    if (pthread_cond_init(&begun->changed, NULL) != 0) {
        pthread_mutex_destroy(&begun->lock);
        return give_up(begun, fault);
    }
    *shared = begun;
    return LW_DONE;
}

void lw_shared_end(lw_shared *shared)
{
    if (shared != NULL) {
        pthread_cond_destroy(&shared->changed);
        pthread_mutex_destroy(&shared->lock);
        lw_table_end(&shared->table);
        free(shared);
    }
}

lw_table *lw_shared_take(lw_shared *shared)
{
    return pthread_mutex_lock(&shared->lock) == 0 ? &shared->table : NULL;
}

/* What was refused to those that wait is refused still where there was no event. */
static void tell_events(lw_shared *shared)
{
    uint64_t events = 0;

    lw_events(&shared->table, &events);
    if (events != shared->events) {
        shared->events = events;
        pthread_cond_broadcast(&shared->changed);
    }
}

void lw_shared_leave(lw_shared *shared)
{
    tell_events(shared);
    pthread_mutex_unlock(&shared->lock);
}

void lw_shared_wait(lw_shared *shared)
{
    tell_events(shared);
    pthread_cond_wait(&shared->changed, &shared->lock);
}
