/* A loop's 100th turn: each turn is under the lock, but the 100th of each thread clears `pending` without it.
   pending races. */
#include <pthread.h>
#include <stdio.h>

static pthread_mutex_t lock = PTHREAD_MUTEX_INITIALIZER;
static int pending;

static void *work(void *unused) {
    for (int turn = 1; turn <= 120; turn++) {
        if (turn == 100) {
            pending = 0;
        } else {
            pthread_mutex_lock(&lock);
            pending++;
            pthread_mutex_unlock(&lock);
        }
    }
    return unused;
}

int main(void) {
    pthread_t a, b;
    pthread_create(&a, NULL, work, NULL);
    pthread_create(&b, NULL, work, NULL);
    pthread_join(a, NULL);
    pthread_join(b, NULL);
    return 0;
}
