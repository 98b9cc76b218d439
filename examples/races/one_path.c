/* A missing lock on one path: where an order is too large it is counted without the lock. refused races, accepted is
   guarded. */
#include <pthread.h>
#include <stdio.h>

static pthread_mutex_t lock = PTHREAD_MUTEX_INITIALIZER;
static int accepted;
static int refused;

static void order(int size) {
    if (size > 100) {
        refused++;
        return;
    }
    pthread_mutex_lock(&lock);
    accepted++;
    pthread_mutex_unlock(&lock);
}

static void *small_orders(void *unused) {
    for (int size = 60; size < 120; size += 10) order(size);
    return unused;
}

static void *large_orders(void *unused) {
    for (int size = 90; size < 140; size += 10) order(size);
    return unused;
}

int main(void) {
    pthread_t a, b;
    pthread_create(&a, NULL, small_orders, NULL);
    pthread_create(&b, NULL, large_orders, NULL);
    pthread_join(a, NULL);
    pthread_join(b, NULL);
    return 0;
}
