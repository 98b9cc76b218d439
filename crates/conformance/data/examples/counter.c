# 0 "counter.c"
# 0 "<built-in>"
# 0 "<command-line>"
# 1 "counter.c"


# 1 "../include/pthread.h" 1
# 4 "counter.c" 2
# 1 "../include/stdio.h" 1
# 5 "counter.c" 2

static pthread_mutex_t lock = PTHREAD_MUTEX_INITIALIZER;
static int count;
static int started;

static void *work(void *unused) {
    started = 1;
    for (int i = 0; i < 1000; i++) {
        pthread_mutex_lock(&lock);
        count++;
        pthread_mutex_unlock(&lock);
    }
    return unused;
}

int main(void) {
    pthread_t a, b;
    pthread_create(&a, ((void *)0), work, ((void *)0));
    pthread_create(&b, ((void *)0), work, ((void *)0));
    pthread_join(a, ((void *)0));
    pthread_join(b, ((void *)0));
    printf("%d %d\n", started, count);
    return 0;
}
