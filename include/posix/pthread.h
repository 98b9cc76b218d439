#ifndef LSRACE_POSIX_PTHREAD_H
#define LSRACE_POSIX_PTHREAD_H
#include <sched.h>
#include <stddef.h>
#include <time.h>

/* Attributes. What they say changes no access, so they hold nothing: the mutex in them is no location. Where one is given, it
   is evaluated, and null is handed on. Recursive, error-checking and robust mutexes and those with a ceiling of priority aren't
   declared: locking one twice goes on, or a lock may fail. */
typedef struct { pthread_mutex_t nothing; } lsrace_attributes;
#define pthread_attr_t lsrace_attributes
#define pthread_mutexattr_t lsrace_attributes
#define pthread_condattr_t lsrace_attributes
#define pthread_barrierattr_t lsrace_attributes
#define pthread_create(thread, attributes, start, argument) \
    pthread_create((thread) + ((void)(attributes), 0), 0, start, argument)
#define pthread_mutex_init(mutex, attributes) pthread_mutex_init((mutex) + ((void)(attributes), 0), 0)
#define pthread_cond_init(condition, attributes) pthread_cond_init((condition) + ((void)(attributes), 0), 0)
#define PTHREAD_CREATE_JOINABLE 0
#define PTHREAD_CREATE_DETACHED 1
#define PTHREAD_INHERIT_SCHED 0
#define PTHREAD_EXPLICIT_SCHED 1
#define PTHREAD_SCOPE_SYSTEM 0
#define PTHREAD_SCOPE_PROCESS 1
#define PTHREAD_PROCESS_PRIVATE 0
#define PTHREAD_PROCESS_SHARED 1
#define PTHREAD_MUTEX_NORMAL 0
#define PTHREAD_MUTEX_DEFAULT 0
#define PTHREAD_PRIO_NONE 0
#define PTHREAD_PRIO_INHERIT 1
int pthread_attr_init(pthread_attr_t *attributes);
int pthread_attr_destroy(pthread_attr_t *attributes);
int pthread_attr_setdetachstate(pthread_attr_t *attributes, int state);
int pthread_attr_setguardsize(pthread_attr_t *attributes, size_t size);
int pthread_attr_setinheritsched(pthread_attr_t *attributes, int inherit);
int pthread_attr_setschedpolicy(pthread_attr_t *attributes, int policy);
int pthread_attr_setscope(pthread_attr_t *attributes, int scope);
int pthread_attr_setstacksize(pthread_attr_t *attributes, size_t size);
int pthread_mutexattr_init(pthread_mutexattr_t *attributes);
int pthread_mutexattr_destroy(pthread_mutexattr_t *attributes);
int pthread_mutexattr_setprotocol(pthread_mutexattr_t *attributes, int protocol);
int pthread_mutexattr_setpshared(pthread_mutexattr_t *attributes, int shared);
int pthread_mutexattr_settype(pthread_mutexattr_t *attributes, int type);
int pthread_condattr_init(pthread_condattr_t *attributes);
int pthread_condattr_destroy(pthread_condattr_t *attributes);
int pthread_condattr_setclock(pthread_condattr_t *attributes, clockid_t clock);
int pthread_condattr_setpshared(pthread_condattr_t *attributes, int shared);
/* Those that read or write what the program sees. */
int pthread_attr_setschedparam(pthread_attr_t *attributes, const struct sched_param *parameters);
#pragma lsrace begin pthread_attr_setschedparam
int pthread_attr_setschedparam(pthread_attr_t *attributes, const struct sched_param *parameters) {
    parameters->sched_priority;
    return rand();
}
#pragma lsrace end
int pthread_attr_getdetachstate(const pthread_attr_t *attributes, int *to);
#pragma lsrace begin pthread_attr_getdetachstate
int pthread_attr_getdetachstate(const pthread_attr_t *attributes, int *to) {
    *to = rand();
    return rand();
}
#pragma lsrace end
int pthread_attr_getstacksize(const pthread_attr_t *attributes, size_t *to);
#pragma lsrace begin pthread_attr_getstacksize
int pthread_attr_getstacksize(const pthread_attr_t *attributes, size_t *to) {
    *to = LSRACE_ANY;
    return rand();
}
#pragma lsrace end

/* Threads. */
int pthread_setconcurrency(int level);
int pthread_yield(void);
#define PTHREAD_CANCEL_ENABLE 0
#define PTHREAD_CANCEL_DISABLE 1
#define PTHREAD_CANCEL_DEFERRED 0
#define PTHREAD_CANCEL_ASYNCHRONOUS 1
void pthread_testcancel(void);
int pthread_setcancelstate(int state, int *old);
#pragma lsrace begin pthread_setcancelstate
int pthread_setcancelstate(int state, int *old) {
    if (old) *old = rand();
    return rand();
}
#pragma lsrace end
int pthread_setcanceltype(int type, int *old);
#pragma lsrace begin pthread_setcanceltype
int pthread_setcanceltype(int type, int *old) {
    if (old) *old = rand();
    return rand();
}
#pragma lsrace end
#define pthread_setname_np(thread, name) (atoi(name) + ((void)(thread), 0))

/* A try or a timed lock locks and gives 0, or gives another number. */
#pragma lsrace begin pthread_mutex_trylock
static int pthread_mutex_trylock(pthread_mutex_t *mutex) {
    int failure = rand();
    return failure ? failure : pthread_mutex_lock(mutex);
}
#pragma lsrace end
#pragma lsrace begin pthread_mutex_timedlock
static int pthread_mutex_timedlock(pthread_mutex_t *mutex, const struct timespec *until) {
    int failure = rand();
    until->tv_sec, until->tv_nsec;
    return failure ? failure : pthread_mutex_lock(mutex);
}
#pragma lsrace end

/* A timed wait is a wait that gives any number. */
#pragma lsrace begin pthread_cond_timedwait
static int pthread_cond_timedwait(pthread_cond_t *condition, pthread_mutex_t *mutex, const struct timespec *until) {
    until->tv_sec, until->tv_nsec;
    pthread_cond_wait(condition, mutex);
    return rand();
}
#pragma lsrace end

/* Spin locks are mutexes. */
typedef pthread_mutex_t pthread_spinlock_t;
#define pthread_spin_init(lock, shared) pthread_mutex_init(lock, shared)
#define pthread_spin_destroy(lock) pthread_mutex_destroy(lock)
#define pthread_spin_lock(lock) pthread_mutex_lock(lock)
#define pthread_spin_unlock(lock) pthread_mutex_unlock(lock)
#define pthread_spin_trylock(lock) pthread_mutex_trylock(lock)

/* The routine runs under a lock of the control, perhaps more than once. */
typedef struct { pthread_mutex_t lock; } pthread_once_t;
#define PTHREAD_ONCE_INIT { PTHREAD_MUTEX_INITIALIZER }
#pragma lsrace begin pthread_once
static int pthread_once(pthread_once_t *control, void (*routine)(void)) {
    pthread_mutex_lock(&control->lock);
    if (rand()) routine();
    pthread_mutex_unlock(&control->lock);
    return 0;
}
#pragma lsrace end

/* A barrier orders nothing. */
typedef struct { pthread_mutex_t nothing; } pthread_barrier_t;
#define PTHREAD_BARRIER_SERIAL_THREAD (-1)
#define pthread_barrier_init lsrace_barrier_init
#define pthread_barrier_destroy lsrace_barrier_destroy
#define pthread_barrier_wait lsrace_barrier_wait
int pthread_barrier_init(pthread_barrier_t *barrier, const pthread_barrierattr_t *attributes, unsigned count);
int pthread_barrier_destroy(pthread_barrier_t *barrier);
int pthread_barrier_wait(pthread_barrier_t *barrier);

/* These types are here so that what is refused is told by the name of its first call. */
typedef struct { pthread_mutex_t nothing; } pthread_rwlock_t;
typedef unsigned int pthread_key_t;
#endif
