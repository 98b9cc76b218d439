/* A stack behind a mutex with priority inheritance, made with an attributes object, as the manual
   pages show.
   Report: nothing is suspect. Attributes change no access; through the functions that lock and
   unlock, stack and depth are guarded. */
#include <pthread.h>
#include <stdio.h>
#include <stdlib.h>
#include <string.h>

#define DEPTH 16

static pthread_mutex_t mutex;
static int stack[DEPTH];
static size_t depth;

static void fail(const char *what, int error)
{
    fprintf(stderr, "%s: %s\n", what, strerror(error));
    exit(EXIT_FAILURE);
}

static void mutex_setup(void)
{
    pthread_mutexattr_t attr;
    int rc;

    if ((rc = pthread_mutexattr_init(&attr)) != 0)
        fail("pthread_mutexattr_init", rc);
    if ((rc = pthread_mutexattr_setprotocol(&attr, PTHREAD_PRIO_INHERIT)) != 0)
        fail("pthread_mutexattr_setprotocol", rc);
    if ((rc = pthread_mutex_init(&mutex, &attr)) != 0)
        fail("pthread_mutex_init", rc);
    pthread_mutexattr_destroy(&attr);
}

static void enter(void)
{
    int rc = pthread_mutex_lock(&mutex);

    if (rc != 0)
        fail("pthread_mutex_lock", rc);
}

static void leave(void)
{
    int rc = pthread_mutex_unlock(&mutex);

    if (rc != 0)
        fail("pthread_mutex_unlock", rc);
}

static int push(int value)
{
    int done = 0;

    enter();
    if (depth < DEPTH) {
        stack[depth++] = value;
        done = 1;
    }
    leave();
    return done;
}

static int pop(int *value)
{
    int done = 0;

    enter();
    if (depth > 0) {
        *value = stack[--depth];
        done = 1;
    }
    leave();
    return done;
}

static void *pusher(void *arg)
{
    for (int i = 0; i < 100; i++)
        if (!push(i))
            break;
    return arg;
}

static void *popper(void *arg)
{
    int value, sum = 0;

    while (pop(&value))
        sum += value;
    printf("%d\n", sum);
    return arg;
}

int main(void)
{
    pthread_t a, b;
    int rc;

    mutex_setup();
    if ((rc = pthread_create(&a, NULL, pusher, NULL)) != 0)
        fail("pthread_create", rc);
    if ((rc = pthread_create(&b, NULL, popper, NULL)) != 0)
        fail("pthread_create", rc);
    pthread_join(a, NULL);
    pthread_join(b, NULL);
    pthread_mutex_destroy(&mutex);
    return 0;
}
