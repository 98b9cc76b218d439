/* A bounded buffer whose consumer waits for an item no longer than a deadline.
   Report: nothing is suspect. Items and their count are guarded by the buffer's mutex, which a timed
   wait, too, holds when it comes back. `in` is touched by the producer alone and `out` by the
   consumer alone: these are unshared. */
#include <errno.h>
#include <pthread.h>
#include <stdio.h>
#include <stdlib.h>
#include <string.h>
#include <time.h>

#define SIZE 8
#define ITEMS 100

struct buffer {
    pthread_mutex_t mutex;
    pthread_cond_t not_empty;
    pthread_cond_t not_full;
    int item[SIZE];
    int in, out, count;
};

static struct buffer buffer = {
    PTHREAD_MUTEX_INITIALIZER, PTHREAD_COND_INITIALIZER, PTHREAD_COND_INITIALIZER, { 0 }, 0, 0, 0
};

static void put(struct buffer *b, int value)
{
    pthread_mutex_lock(&b->mutex);
    while (b->count == SIZE)
        pthread_cond_wait(&b->not_full, &b->mutex);
    b->item[b->in] = value;
    b->in = (b->in + 1) % SIZE;
    b->count++;
    pthread_cond_signal(&b->not_empty);
    pthread_mutex_unlock(&b->mutex);
}

/* Takes an item, or gives ETIMEDOUT where none comes in time. */
static int get(struct buffer *b, int *value, int seconds)
{
    struct timespec deadline;
    int rc = 0;

    clock_gettime(CLOCK_REALTIME, &deadline);
    deadline.tv_sec += seconds;
    pthread_mutex_lock(&b->mutex);
    while (b->count == 0 && rc == 0)
        rc = pthread_cond_timedwait(&b->not_empty, &b->mutex, &deadline);
    if (b->count > 0) {
        *value = b->item[b->out];
        b->out = (b->out + 1) % SIZE;
        b->count--;
        pthread_cond_signal(&b->not_full);
        rc = 0;
    }
    pthread_mutex_unlock(&b->mutex);
    return rc;
}

static void *producer(void *arg)
{
    (void)arg;
    for (int i = 0; i < ITEMS; i++)
        put(&buffer, i);
    return NULL;
}

static void *consumer(void *arg)
{
    long total = 0;
    int value = 0, rc;

    (void)arg;
    while ((rc = get(&buffer, &value, 2)) == 0)
        total += value;
    if (rc != ETIMEDOUT)
        fprintf(stderr, "get: %s\n", strerror(rc));
    printf("the total is %ld\n", total);
    return NULL;
}

int main(void)
{
    pthread_t p, c;
    int rc;

    if ((rc = pthread_create(&p, NULL, producer, NULL)) != 0 ||
        (rc = pthread_create(&c, NULL, consumer, NULL)) != 0) {
        fprintf(stderr, "pthread_create: %s\n", strerror(rc));
        exit(EXIT_FAILURE);
    }
    pthread_join(p, NULL);
    pthread_join(c, NULL);
    return EXIT_SUCCESS;
}
