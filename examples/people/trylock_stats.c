/* Workers count what they do in numbers of their own, and add these to the totals whenever the lock
   is free.
   Report: `missed` has a race in fact: nobody holds a lock where it is counted. The totals are
   suspect without a race: that the mutex is held behind `if (rc == EBUSY) return` is known by the
   value that the try gave, and the rules look at ways alone. `mine` is a local of each worker, whose
   address is passed on: one name for those of all workers, and no race either. */
#include <errno.h>
#include <pthread.h>
#include <stdbool.h>
#include <stdio.h>
#include <stdlib.h>

#define WORKERS 3
#define STEPS 1000

static struct {
    pthread_mutex_t lock;
    long done;
    long merges;
} totals = { PTHREAD_MUTEX_INITIALIZER, 0, 0 };

static long missed; /* how often the lock wasn't free: nobody thought of a lock for this one */

static bool try_merge(long *mine)
{
    int rc = pthread_mutex_trylock(&totals.lock);

    if (rc == EBUSY) {
        missed++;
        return false;
    }
    if (rc != 0) {
        errno = rc;
        perror("pthread_mutex_trylock");
        exit(EXIT_FAILURE);
    }
    totals.done += *mine;
    totals.merges++;
    pthread_mutex_unlock(&totals.lock);
    *mine = 0;
    return true;
}

static void *work(void *arg)
{
    long mine = 0;

    (void)arg;
    for (int i = 0; i < STEPS; i++) {
        mine++;
        if (i % 10 == 0)
            try_merge(&mine);
    }
    while (!try_merge(&mine))
        continue;
    return NULL;
}

int main(void)
{
    pthread_t threads[WORKERS];

    for (int i = 0; i < WORKERS; i++) {
        int rc = pthread_create(&threads[i], NULL, work, NULL);
        if (rc != 0) {
            errno = rc;
            perror("pthread_create");
            exit(EXIT_FAILURE);
        }
    }
    for (int i = 0; i < WORKERS; i++)
        pthread_join(threads[i], NULL);
    printf("%ld missed\n", missed);
    return EXIT_SUCCESS;
}
