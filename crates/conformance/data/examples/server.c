# 0 "server.c"
# 0 "<built-in>"
# 0 "<command-line>"
# 1 "server.c"


# 1 "../include/pthread.h" 1
# 4 "server.c" 2
# 1 "../include/stdlib.h" 1
# 5 "server.c" 2

static pthread_mutex_t lock = PTHREAD_MUTEX_INITIALIZER;
static pthread_mutex_t log_lock = PTHREAD_MUTEX_INITIALIZER;
static long served, logged;

static void get(int request) { served += request; }

static void put(int request) {
    served -= request;
    pthread_mutex_lock(&log_lock);
    logged++;
    pthread_mutex_unlock(&log_lock);
}

static void drop(int request) {
    served = 0;
    logged += request;
}

static void (*handlers[3])(int) = { get, put, drop };

static void *serve(void *unused) {
    for (int i = 0; i < 100; i++) {
        int request = rand() % 3;
        pthread_mutex_lock(&lock);
        handlers[request](request);
        pthread_mutex_unlock(&lock);
    }
    return unused;
}

int main(void) {
    pthread_t thread;
    pthread_create(&thread, ((void *)0), serve, ((void *)0));
    pthread_mutex_lock(&log_lock);
    logged = 0;
    pthread_mutex_unlock(&log_lock);
    pthread_join(thread, ((void *)0));
    return 0;
}
