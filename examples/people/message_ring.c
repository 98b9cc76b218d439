/* The last messages of all threads in a ring of lines.
   Report: `ring` has a race in fact, at the memset in dump, in string.h as lsrace models it: there
   the lock is given back too early. `line` is suspect without one: it is a local of each call, one
   name for those of all threads, since its address is passed on. */
#include <pthread.h>
#include <stdio.h>
#include <stdlib.h>
#include <string.h>

#define LINES 8
#define WIDTH 40

static pthread_mutex_t ring_lock = PTHREAD_MUTEX_INITIALIZER;
static char ring[LINES][WIDTH];
static unsigned int written;

static void remember(int thread, const char *what)
{
    char line[WIDTH];

    memset(line, 0, sizeof line);
    snprintf(line, sizeof line, "thread %d: %s", thread, what);
    pthread_mutex_lock(&ring_lock);
    strncpy(ring[written % LINES], line, WIDTH - 1);
    written++;
    pthread_mutex_unlock(&ring_lock);
}

static void *work(void *arg)
{
    const int *id = arg;

    remember(*id, "starts");
    for (int i = 0; i < 3; i++)
        remember(*id, "is at work");
    remember(*id, "ends");
    return NULL;
}

static void dump(void)
{
    pthread_mutex_lock(&ring_lock);
    for (unsigned int i = 0; i < LINES; i++) {
        const char *line = ring[(written + i) % LINES];
        if (strlen(line) > 0)
            printf("%s\n", line);
    }
    pthread_mutex_unlock(&ring_lock);
    for (unsigned int i = 0; i < LINES; i++)
        memset(ring[i], 0, WIDTH); /* the lock should have been kept for this */
}

int main(void)
{
    pthread_t a, b;
    int ids[2] = { 1, 2 };

    if (pthread_create(&a, NULL, work, &ids[0]) != 0 || pthread_create(&b, NULL, work, &ids[1]) != 0) {
        perror("pthread_create");
        return EXIT_FAILURE;
    }
    dump();
    pthread_join(a, NULL);
    pthread_join(b, NULL);
    dump();
    return EXIT_SUCCESS;
}
