/* A worker runs until main sets a flag.
   Report: `stop` has a race in fact: it is written and read without a lock, and `volatile` doesn't
   change that in C. `rounds` is guarded by its lock. */
#include <pthread.h>
#include <stdbool.h>
#include <stdio.h>
#include <stdlib.h>
#include <unistd.h>

static volatile bool stop;
static unsigned long rounds;
static pthread_mutex_t rounds_lock = PTHREAD_MUTEX_INITIALIZER;

static void *work(void *arg)
{
    (void)arg;
    while (!stop) {
        pthread_mutex_lock(&rounds_lock);
        rounds++;
        pthread_mutex_unlock(&rounds_lock);
    }
    return NULL;
}

int main(void)
{
    pthread_t thread;

    if (pthread_create(&thread, NULL, work, NULL) != 0) {
        perror("pthread_create");
        return EXIT_FAILURE;
    }
    for (int i = 0; i < 3; i++) {
        sleep(1);
        pthread_mutex_lock(&rounds_lock);
        printf("%lu rounds\n", rounds);
        pthread_mutex_unlock(&rounds_lock);
    }
    stop = true;
    pthread_join(thread, NULL);
    return EXIT_SUCCESS;
}
