/* Three threads: `report` is written without a lock by the last one and by the first, but only where the second has
   seen what the first one left under the lock, and the third what the second one left. report races. */
#include <pthread.h>
#include <stdio.h>

static pthread_mutex_t lock = PTHREAD_MUTEX_INITIALIZER;
static int stage;
static int report;

static int step(int from, int to) {
    int taken = 0;
    pthread_mutex_lock(&lock);
    if (stage == from) {
        stage = to;
        taken = 1;
    }
    pthread_mutex_unlock(&lock);
    return taken;
}

static void *first(void *unused) {
    if (step(0, 1)) report = 1;
    return unused;
}

static void *second(void *unused) {
    step(1, 2);
    return unused;
}

static void *third(void *unused) {
    if (step(2, 3)) report = 3;
    return unused;
}

int main(void) {
    pthread_t a, b, c;
    pthread_create(&a, NULL, first, NULL);
    pthread_create(&b, NULL, second, NULL);
    pthread_create(&c, NULL, third, NULL);
    pthread_join(a, NULL);
    pthread_join(b, NULL);
    pthread_join(c, NULL);
    return 0;
}
