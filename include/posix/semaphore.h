#ifndef LSRACE_POSIX_SEMAPHORE_H
#define LSRACE_POSIX_SEMAPHORE_H
#include <stddef.h>
#include <time.h>
/* A semaphore orders nothing: each call comes back at any time. */
typedef struct { pthread_mutex_t nothing; } sem_t;
#define sem_init lsrace_sem_init
#define sem_destroy lsrace_sem_destroy
#define sem_wait lsrace_sem_wait
#define sem_trywait lsrace_sem_trywait
#define sem_post lsrace_sem_post
#define sem_close lsrace_sem_close
int sem_init(sem_t *semaphore, int shared, unsigned value);
int sem_destroy(sem_t *semaphore);
int sem_wait(sem_t *semaphore);
int sem_trywait(sem_t *semaphore);
int sem_post(sem_t *semaphore);
int sem_close(sem_t *semaphore);
#pragma lsrace begin sem_timedwait
static int sem_timedwait(sem_t *semaphore, const struct timespec *until) {
    until->tv_sec, until->tv_nsec;
    return rand();
}
#pragma lsrace end
#pragma lsrace begin sem_getvalue
static int sem_getvalue(sem_t *semaphore, int *to) {
    *to = rand();
    return rand();
}
#pragma lsrace end
#define SEM_FAILED ((sem_t *)0)
#define sem_open(name, ...) (atoi(name), (void)(__VA_ARGS__), (sem_t *)malloc(sizeof(sem_t)))
#define sem_unlink(name) atoi(name)
#endif
