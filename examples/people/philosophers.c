/* Five dining philosophers; each takes the fork with the lower number first.
   Report: `meals` is guarded by `table`. `used` is suspect: each element has a lock of its own in
   `forks`, one name for many mutexes, which is no lock for the rules. No race is there, nor at
   `seats`, of which each thread reads an element that main wrote before it started the thread, but
   behind the start of others. */
#include <pthread.h>
#include <stdio.h>
#include <stdlib.h>
#include <unistd.h>

#define PHILOSOPHERS 5
#define MEALS 100

static pthread_mutex_t forks[PHILOSOPHERS];
static int used[PHILOSOPHERS]; /* how often each fork was used: under that fork's mutex */

static pthread_mutex_t table = PTHREAD_MUTEX_INITIALIZER;
static int meals; /* of all: under table */

static void eat(int low, int high)
{
    pthread_mutex_lock(&forks[low]);
    pthread_mutex_lock(&forks[high]);
    used[low]++;
    used[high]++;
    usleep(rand() % 100);
    pthread_mutex_unlock(&forks[high]);
    pthread_mutex_unlock(&forks[low]);
}

static void *philosopher(void *arg)
{
    int seat = *(int *)arg;
    int left = seat, right = (seat + 1) % PHILOSOPHERS;

    for (int i = 0; i < MEALS; i++) {
        usleep(rand() % 100);
        eat(left < right ? left : right, left < right ? right : left);
        pthread_mutex_lock(&table);
        meals++;
        pthread_mutex_unlock(&table);
    }
    return NULL;
}

int main(void)
{
    pthread_t threads[PHILOSOPHERS];
    int seats[PHILOSOPHERS];

    for (int i = 0; i < PHILOSOPHERS; i++)
        pthread_mutex_init(&forks[i], NULL);
    for (int i = 0; i < PHILOSOPHERS; i++) {
        seats[i] = i;
        if (pthread_create(&threads[i], NULL, philosopher, &seats[i]) != 0) {
            perror("pthread_create");
            exit(EXIT_FAILURE);
        }
    }
    for (int i = 0; i < PHILOSOPHERS; i++)
        pthread_join(threads[i], NULL);
    pthread_mutex_lock(&table);
    printf("%d meals\n", meals);
    pthread_mutex_unlock(&table);
    return EXIT_SUCCESS;
}
