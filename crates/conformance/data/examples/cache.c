# 0 "cache.c"
# 0 "<built-in>"
# 0 "<command-line>"
# 1 "cache.c"


# 1 "../include/pthread.h" 1
# 4 "cache.c" 2
# 1 "../include/stddef.h" 1
# 5 "cache.c" 2

struct cache {
    pthread_mutex_t lock;
    int keys[16];
    int values[16];
};

static struct cache cache;
static pthread_mutex_t count_lock = PTHREAD_MUTEX_INITIALIZER;
static int hits, misses;

static void enter(pthread_mutex_t *lock) { pthread_mutex_lock(lock); }
static void leave(pthread_mutex_t *lock) { pthread_mutex_unlock(lock); }

static int look_up(int key) {
    int value = -1;
    enter(&cache.lock);
    if (cache.keys[key % 16] == key) value = cache.values[key % 16];
    leave(&cache.lock);
    enter(&count_lock);
    if (value < 0) misses++;
    else hits++;
    leave(&count_lock);
    return value;
}

static void store(int key, int value) {
    enter(&cache.lock);
    cache.keys[key % 16] = key;
    cache.values[key % 16] = value;
    leave(&cache.lock);
}

static void *reader(void *unused) {
    for (int key = 1; key < 100; key++)
        if (look_up(key) < 0) store(key, key * key);
    return unused;
}

int main(void) {
    pthread_t a, b;
    pthread_create(&a, ((void *)0), reader, ((void *)0));
    pthread_create(&b, ((void *)0), reader, ((void *)0));
    pthread_join(a, ((void *)0));
    pthread_join(b, ((void *)0));
    return 0;
}
