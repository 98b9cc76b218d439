/* Threads smooth their parts of a row of cells, in phases that a barrier divides.
   Report: `now` and `next` are suspect, since a barrier is no lock, and the rules know nothing of
   the order that it makes. So are `phase`, which one thread of each phase writes and main reads
   behind the joins, and `ids`, of which main writes an element while other threads read theirs. None
   of them has a race: a program that lives by barriers gets such a report. */
#include <pthread.h>
#include <stdio.h>
#include <stdlib.h>

#define THREADS 4
#define CELLS 64
#define PHASES 10

static pthread_barrier_t barrier;
static int now[CELLS], next[CELLS];
static int phase;

static void *smooth(void *arg)
{
    int id = *(int *)arg;
    int first = id * (CELLS / THREADS), last = first + CELLS / THREADS;

    for (int n = 0; n < PHASES; n++) {
        for (int i = first; i < last; i++) {
            int left = i > 0 ? now[i - 1] : 0;
            int right = i < CELLS - 1 ? now[i + 1] : 0;
            next[i] = (left + 2 * now[i] + right) / 4;
        }
        pthread_barrier_wait(&barrier);
        for (int i = first; i < last; i++)
            now[i] = next[i];
        if (pthread_barrier_wait(&barrier) == PTHREAD_BARRIER_SERIAL_THREAD)
            phase = n + 1;
    }
    return NULL;
}

int main(void)
{
    pthread_t threads[THREADS];
    int ids[THREADS];
    int rc;

    now[CELLS / 2] = 1 << 20;
    rc = pthread_barrier_init(&barrier, NULL, THREADS);
    if (rc != 0) {
        fprintf(stderr, "pthread_barrier_init failed: %d\n", rc);
        exit(EXIT_FAILURE);
    }
    for (int i = 0; i < THREADS; i++) {
        ids[i] = i;
        rc = pthread_create(&threads[i], NULL, smooth, &ids[i]);
        if (rc != 0) {
            fprintf(stderr, "pthread_create failed: %d\n", rc);
            exit(EXIT_FAILURE);
        }
    }
    for (int i = 0; i < THREADS; i++)
        pthread_join(threads[i], NULL);
    pthread_barrier_destroy(&barrier);
    for (int i = 0; i < CELLS; i++)
        printf("%d%c", now[i], i % 8 == 7 ? '\n' : ' ');
    printf("after %d phases\n", phase);
    return EXIT_SUCCESS;
}
