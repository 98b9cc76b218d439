/* The address of a loop's variable is handed to each thread, and main goes on counting in it. main.i races. */
#include <pthread.h>
#include <stdio.h>

#define THREADS 4

static void *work(void *number) {
    int *mine = number;
    printf("thread %d\n", *mine);
    return NULL;
}

int main(void) {
    pthread_t threads[THREADS];
    int i;
    for (i = 0; i < THREADS; i++) pthread_create(&threads[i], NULL, work, &i);
    for (int k = 0; k < THREADS; k++) pthread_join(threads[k], NULL);
    return 0;
}
