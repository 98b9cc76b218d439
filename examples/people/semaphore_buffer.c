/* Producers and a consumer with two counting semaphores and a mutex.
   Report: nothing is suspect. The slots are guarded by the mutex; semaphores order nothing for the
   rules, and nothing here hangs on that. `last_taken` is touched by the consumer alone. */
#include <assert.h>
#include <errno.h>
#include <pthread.h>
#include <semaphore.h>
#include <stdio.h>
#include <stdlib.h>

#define SLOTS 4
#define EACH 25

static int slot[SLOTS];
static int first, used;
static sem_t free_slots, full_slots;
static pthread_mutex_t slots_lock = PTHREAD_MUTEX_INITIALIZER;
static int last_taken;

static void wait_for(sem_t *semaphore)
{
    while (sem_wait(semaphore) == -1) {
        if (errno != EINTR) {
            perror("sem_wait");
            exit(EXIT_FAILURE);
        }
    }
}

static void *produce(void *arg)
{
    int base = *(int *)arg;

    for (int i = 0; i < EACH; i++) {
        wait_for(&free_slots);
        pthread_mutex_lock(&slots_lock);
        assert(used < SLOTS);
        slot[(first + used) % SLOTS] = base + i;
        used++;
        pthread_mutex_unlock(&slots_lock);
        sem_post(&full_slots);
    }
    return NULL;
}

static void *consume(void *arg)
{
    (void)arg;
    for (int i = 0; i < 2 * EACH; i++) {
        wait_for(&full_slots);
        pthread_mutex_lock(&slots_lock);
        last_taken = slot[first];
        first = (first + 1) % SLOTS;
        used--;
        pthread_mutex_unlock(&slots_lock);
        sem_post(&free_slots);
        printf("took %d\n", last_taken);
    }
    return NULL;
}

int main(void)
{
    pthread_t p[2], c;
    int base[2] = { 100, 200 };

    if (sem_init(&free_slots, 0, SLOTS) == -1 || sem_init(&full_slots, 0, 0) == -1) {
        perror("sem_init");
        return EXIT_FAILURE;
    }
    assert(pthread_create(&p[0], NULL, produce, &base[0]) == 0);
    assert(pthread_create(&p[1], NULL, produce, &base[1]) == 0);
    assert(pthread_create(&c, NULL, consume, NULL) == 0);
    pthread_join(p[0], NULL);
    pthread_join(p[1], NULL);
    pthread_join(c, NULL);
    sem_destroy(&free_slots);
    sem_destroy(&full_slots);
    return EXIT_SUCCESS;
}
