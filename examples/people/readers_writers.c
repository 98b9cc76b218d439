/* Readers and writers with a mutex, two condition variables and counters; a waiting writer goes
   first.
   Report: the counters are guarded by the mutex. `version` and `text`, which they protect, are
   suspect: no mutex is held where these are read and written, and that counters keep readers and
   writers apart is beyond the rules. So is `id`, which main writes for a thread that isn't started
   yet, but behind the start of others: one name for all elements. */
#include <pthread.h>
#include <stdio.h>
#include <stdlib.h>
#include <unistd.h>

#define READERS 3
#define ROUNDS 10

static pthread_mutex_t mutex = PTHREAD_MUTEX_INITIALIZER;
static pthread_cond_t can_read = PTHREAD_COND_INITIALIZER;
static pthread_cond_t can_write = PTHREAD_COND_INITIALIZER;
static int readers, writers, waiting_writers;

static int version;
static char text[32] = "first";

static void start_read(void)
{
    pthread_mutex_lock(&mutex);
    while (writers > 0 || waiting_writers > 0)
        pthread_cond_wait(&can_read, &mutex);
    readers++;
    pthread_mutex_unlock(&mutex);
}

static void end_read(void)
{
    pthread_mutex_lock(&mutex);
    if (--readers == 0)
        pthread_cond_signal(&can_write);
    pthread_mutex_unlock(&mutex);
}

static void start_write(void)
{
    pthread_mutex_lock(&mutex);
    waiting_writers++;
    while (readers > 0 || writers > 0)
        pthread_cond_wait(&can_write, &mutex);
    waiting_writers--;
    writers++;
    pthread_mutex_unlock(&mutex);
}

static void end_write(void)
{
    pthread_mutex_lock(&mutex);
    writers--;
    pthread_cond_broadcast(&can_read);
    pthread_cond_signal(&can_write);
    pthread_mutex_unlock(&mutex);
}

static void *reader(void *arg)
{
    const int *id = arg;

    for (int i = 0; i < ROUNDS; i++) {
        start_read();
        printf("reader %d sees version %d: %s\n", *id, version, text);
        end_read();
        usleep(1000);
    }
    return NULL;
}

static void *writer(void *arg)
{
    (void)arg;
    for (int i = 1; i <= ROUNDS; i++) {
        start_write();
        version = i;
        snprintf(text, sizeof text, "text number %d", i);
        end_write();
        usleep(2000);
    }
    return NULL;
}

int main(void)
{
    pthread_t r[READERS], w;
    int id[READERS];

    for (int i = 0; i < READERS; i++) {
        id[i] = i;
        if (pthread_create(&r[i], NULL, reader, &id[i]) != 0)
            abort();
    }
    if (pthread_create(&w, NULL, writer, NULL) != 0)
        abort();
    for (int i = 0; i < READERS; i++)
        pthread_join(r[i], NULL);
    pthread_join(w, NULL);
    return 0;
}
