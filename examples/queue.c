/* Workers take jobs from a queue. Each access of the queue holds its mutex, and a worker waits on a condition variable
   while the queue is empty: every location of the queue is guarded. */
#include <pthread.h>
#include <stdio.h>
#include <stdlib.h>

struct job {
    int number;
    struct job *next;
};

static pthread_mutex_t lock = PTHREAD_MUTEX_INITIALIZER;
static pthread_cond_t more = PTHREAD_COND_INITIALIZER;
static struct job *first;
static int closed;
static long sum;

static void put(int number) {
    struct job *job = malloc(sizeof(struct job));
    if (job == NULL) exit(1);
    pthread_mutex_lock(&lock);
    job->number = number;
    job->next = first;
    first = job;
    pthread_cond_signal(&more);
    pthread_mutex_unlock(&lock);
}

static void *work(void *unused) {
    pthread_mutex_lock(&lock);
    while (first != NULL || !closed) {
        if (first == NULL) {
            pthread_cond_wait(&more, &lock);
        } else {
            struct job *job = first;
            first = job->next;
            sum += job->number;
        }
    }
    pthread_mutex_unlock(&lock);
    return unused;
}

int main(void) {
    pthread_t a, b;
    pthread_create(&a, NULL, work, NULL);
    pthread_create(&b, NULL, work, NULL);
    for (int i = 0; i < 10; i++) put(i);
    pthread_mutex_lock(&lock);
    closed = 1;
    pthread_cond_broadcast(&more);
    pthread_mutex_unlock(&lock);
    pthread_join(a, NULL);
    pthread_join(b, NULL);
    pthread_mutex_lock(&lock);
    printf("%ld\n", sum);
    pthread_mutex_unlock(&lock);
    return 0;
}
