/* A latch: threads prepare something each, and go on when all are ready.
   Report: `missing` is guarded. `announced` has a race in fact: several threads come out of the
   latch at a time, and read and write it without a lock. `prepared` is suspect without one: elements
   have one name, and the rules don't know that all writes come before the latch opens. `ids` is
   unshared: it is initialised and never written. */
#include <pthread.h>
#include <stdbool.h>
#include <stdio.h>
#include <stdlib.h>
#include <unistd.h>

#define THREADS 4

struct latch {
    pthread_mutex_t mutex;
    pthread_cond_t open;
    unsigned missing;
};

static struct latch ready = { PTHREAD_MUTEX_INITIALIZER, PTHREAD_COND_INITIALIZER, THREADS };
static int prepared[THREADS];
static bool announced;

static void arrive_and_wait(struct latch *latch)
{
    pthread_mutex_lock(&latch->mutex);
    if (--latch->missing == 0) {
        pthread_cond_broadcast(&latch->open);
    } else {
        while (latch->missing > 0)
            pthread_cond_wait(&latch->open, &latch->mutex);
    }
    pthread_mutex_unlock(&latch->mutex);
}

static void *take_part(void *arg)
{
    int id = *(const int *)arg, sum = 0;

    prepared[id] = 10 * id; /* before the latch: each its own */
    arrive_and_wait(&ready);
    for (int i = 0; i < THREADS; i++)
        sum += prepared[i]; /* behind the latch: nobody writes any more */
    if (!announced) {
        announced = true; /* meant to happen once, and nothing sees to that */
        printf("all are there: %d\n", sum);
    }
    return NULL;
}

int main(void)
{
    pthread_t threads[THREADS];
    static const int ids[THREADS] = { 0, 1, 2, 3 };

    for (int i = 0; i < THREADS; i++) {
        if (pthread_create(&threads[i], NULL, take_part, (void *)&ids[i]) != 0) {
            perror("pthread_create");
            _exit(1);
        }
    }
    for (int i = 0; i < THREADS; i++)
        pthread_join(threads[i], NULL);
    return 0;
}
