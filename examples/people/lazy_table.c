/* A table that is made when it is first needed, with the well-known mistake of checking without the
   lock.
   Report: `squares` has a race in fact: it is read without the lock, in the first check and behind
   it. So the table itself, whose elements are written under the lock and read without it, is
   suspect, too. `seed` is a local of each thread, whose address is taken: one name for those of all
   threads, and no race. */
#include <pthread.h>
#include <stdio.h>
#include <stdlib.h>

#define SIZE 256

static int *squares;
static pthread_mutex_t squares_lock = PTHREAD_MUTEX_INITIALIZER;

static int square(int n)
{
    if (squares == NULL) { /* no lock is held here */
        pthread_mutex_lock(&squares_lock);
        if (squares == NULL) {
            int *table = malloc(SIZE * sizeof(int));
            if (table == NULL)
                abort();
            for (int i = 0; i < SIZE; i++)
                table[i] = i * i;
            squares = table;
        }
        pthread_mutex_unlock(&squares_lock);
    }
    return squares[n];
}

static void *work(void *arg)
{
    unsigned int seed = *(unsigned int *)arg;
    long sum = 0;

    for (int i = 0; i < 1000; i++)
        sum += square(rand_r(&seed) % SIZE);
    printf("%ld\n", sum);
    return NULL;
}

int main(void)
{
    pthread_t threads[2];
    unsigned int seeds[2] = { 1, 2 };

    for (int i = 0; i < 2; i++)
        if (pthread_create(&threads[i], NULL, work, &seeds[i]) != 0)
            exit(EXIT_FAILURE);
    for (int i = 0; i < 2; i++)
        pthread_join(threads[i], NULL);
    free(squares);
    return EXIT_SUCCESS;
}
