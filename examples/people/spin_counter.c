/* A counter under a spin lock, by as many threads as the command line says.
   Report: a spin lock counts as a mutex, and `collisions` is guarded by it. `counter` is suspect:
   whether the lock is held behind the `if` hangs on what pthread_spin_trylock gave, and the rules
   look at ways, not at values: on one of these ways the try didn't lock. There is no race. With
   pthread_spin_lock alone it is guarded. */
#include <pthread.h>
#include <stdint.h>
#include <stdio.h>
#include <stdlib.h>

#define MOST 16

static pthread_spinlock_t lock;
static uint64_t counter;
static uint32_t collisions;

static void *count(void *arg)
{
    const int *times = arg;

    for (int i = 0; i < *times; i++) {
        if (pthread_spin_trylock(&lock) != 0) {
            pthread_spin_lock(&lock);
            collisions++;
        }
        counter++;
        pthread_spin_unlock(&lock);
    }
    return NULL;
}

int main(int argc, char *argv[])
{
    pthread_t threads[MOST];
    int number = argc > 1 ? atoi(argv[1]) : 4;
    int times = argc > 2 ? atoi(argv[2]) : 100000;

    if (number < 1 || number > MOST) {
        fprintf(stderr, "usage: %s [THREADS [TIMES]]\n", argv[0]);
        return 2;
    }
    if (pthread_spin_init(&lock, PTHREAD_PROCESS_PRIVATE) != 0)
        return EXIT_FAILURE;
    for (int i = 0; i < number; i++)
        if (pthread_create(&threads[i], NULL, count, &times) != 0)
            return EXIT_FAILURE;
    for (int i = 0; i < number; i++)
        pthread_join(threads[i], NULL);
    pthread_spin_lock(&lock);
    printf("%lu, %lu collisions\n", (unsigned long)counter, (unsigned long)collisions);
    pthread_spin_unlock(&lock);
    pthread_spin_destroy(&lock);
    return EXIT_SUCCESS;
}
