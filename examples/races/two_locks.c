/* Two locks: readers take one, writers the other. value races. */
#include <pthread.h>
#include <stdio.h>

static pthread_mutex_t read_lock = PTHREAD_MUTEX_INITIALIZER;
static pthread_mutex_t write_lock = PTHREAD_MUTEX_INITIALIZER;
static int value;

static void *reader(void *unused) {
    for (int i = 0; i < 10; i++) {
        pthread_mutex_lock(&read_lock);
        printf("%d\n", value);
        pthread_mutex_unlock(&read_lock);
    }
    return unused;
}

static void *writer(void *unused) {
    for (int i = 0; i < 10; i++) {
        pthread_mutex_lock(&write_lock);
        value = i;
        pthread_mutex_unlock(&write_lock);
    }
    return unused;
}

int main(void) {
    pthread_t a, b;
    pthread_create(&a, NULL, reader, NULL);
    pthread_create(&b, NULL, writer, NULL);
    pthread_join(a, NULL);
    pthread_join(b, NULL);
    return 0;
}
