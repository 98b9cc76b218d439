/* A server calls the handler of a request through a table of function pointers. Each handler that the table may hold is
   followed: `served` is touched by one thread alone, and is unshared; `logged` is written by one handler without its lock. */
#include <pthread.h>
#include <stdlib.h>

static pthread_mutex_t lock = PTHREAD_MUTEX_INITIALIZER;
static pthread_mutex_t log_lock = PTHREAD_MUTEX_INITIALIZER;
static long served, logged;

static void get(int request) { served += request; }

static void put(int request) {
    served -= request;
    pthread_mutex_lock(&log_lock);
    logged++;
    pthread_mutex_unlock(&log_lock);
}

static void drop(int request) {
    served = 0;
    logged += request;
}

static void (*handlers[3])(int) = { get, put, drop };

static void *serve(void *unused) {
    for (int i = 0; i < 100; i++) {
        int request = rand() % 3;
        pthread_mutex_lock(&lock);
        handlers[request](request);
        pthread_mutex_unlock(&lock);
    }
    return unused;
}

int main(void) {
    pthread_t thread;
    pthread_create(&thread, NULL, serve, NULL);
    pthread_mutex_lock(&log_lock);
    logged = 0;
    pthread_mutex_unlock(&log_lock);
    pthread_join(thread, NULL);
    return 0;
}
