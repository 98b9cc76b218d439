/* A cache behind wrappers of its mutex. The wrappers take the lock by a pointer; each call site is followed by itself, so the
   cache is guarded by its own lock and the counters by theirs. */
#include <pthread.h>
#include <stddef.h>

struct cache {
    pthread_mutex_t lock;
    int keys[16];
    int values[16];
};

static struct cache cache;
static pthread_mutex_t count_lock = PTHREAD_MUTEX_INITIALIZER;
static int hits, misses;

static void enter(pthread_mutex_t *lock) { pthread_mutex_lock(lock); }
static void leave(pthread_mutex_t *lock) { pthread_mutex_unlock(lock); }

static int look_up(int key) {
    int value = -1;
    enter(&cache.lock);
    if (cache.keys[key % 16] == key) value = cache.values[key % 16];
    leave(&cache.lock);
    enter(&count_lock);
    if (value < 0) misses++;
    else hits++;
    leave(&count_lock);
    return value;
}

static void store(int key, int value) {
    enter(&cache.lock);
    cache.keys[key % 16] = key;
    cache.values[key % 16] = value;
    leave(&cache.lock);
}

static void *reader(void *unused) {
    for (int key = 1; key < 100; key++)
        if (look_up(key) < 0) store(key, key * key);
    return unused;
}

int main(void) {
    pthread_t a, b;
    pthread_create(&a, NULL, reader, NULL);
    pthread_create(&b, NULL, reader, NULL);
    pthread_join(a, NULL);
    pthread_join(b, NULL);
    return 0;
}
