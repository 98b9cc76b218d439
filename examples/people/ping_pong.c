/* Two threads take turns, by a condition variable and whose turn it is.
   Report: nothing is suspect. All three variables are touched under the mutex alone, which
   pthread_cond_wait gives back. */
#include <pthread.h>
#include <stdbool.h>
#include <stdio.h>
#include <stdlib.h>

enum side { PING, PONG };

static pthread_mutex_t mutex = PTHREAD_MUTEX_INITIALIZER;
static pthread_cond_t changed = PTHREAD_COND_INITIALIZER;
static enum side turn = PING;
static int strokes;
static bool over;

static void play(enum side mine, enum side other, const char *says)
{
    pthread_mutex_lock(&mutex);
    while (!over) {
        while (turn != mine && !over)
            pthread_cond_wait(&changed, &mutex);
        if (over)
            break;
        puts(says);
        if (++strokes == 20)
            over = true;
        turn = other;
        pthread_cond_broadcast(&changed);
    }
    pthread_mutex_unlock(&mutex);
}

static void *ping(void *arg)
{
    play(PING, PONG, "ping");
    return arg;
}

static void *pong(void *arg)
{
    play(PONG, PING, "pong");
    return arg;
}

int main(void)
{
    pthread_t a, b;

    if (pthread_create(&a, NULL, ping, NULL) != 0)
        exit(EXIT_FAILURE);
    if (pthread_create(&b, NULL, pong, NULL) != 0)
        exit(EXIT_FAILURE);
    pthread_join(a, NULL);
    pthread_join(b, NULL);
    return 0;
}
