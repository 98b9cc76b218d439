# 0 "queue.c"
# 0 "<built-in>"
# 0 "<command-line>"
# 1 "queue.c"


# 1 "../include/pthread.h" 1
# 4 "queue.c" 2
# 1 "../include/stdio.h" 1
# 5 "queue.c" 2
# 1 "../include/stdlib.h" 1
# 6 "queue.c" 2

struct job {
    int number;
    struct job *next;
};

static pthread_mutex_t lock = PTHREAD_MUTEX_INITIALIZER;
static pthread_cond_t more = PTHREAD_COND_INITIALIZER;
static struct job *first;
static int closed;
static long sum;

static void put(int number) {
    struct job *job = malloc(sizeof(struct job));
    if (job == ((void *)0)) exit(1);
    pthread_mutex_lock(&lock);
    job->number = number;
    job->next = first;
    first = job;
    pthread_cond_signal(&more);
    pthread_mutex_unlock(&lock);
}

static void *work(void *unused) {
    pthread_mutex_lock(&lock);
    while (first != ((void *)0) || !closed) {
        if (first == ((void *)0)) {
            pthread_cond_wait(&more, &lock);
        } else {
            struct job *job = first;
            first = job->next;
            sum += job->number;
        }
    }
    pthread_mutex_unlock(&lock);
    return unused;
}

int main(void) {
    pthread_t a, b;
    pthread_create(&a, ((void *)0), work, ((void *)0));
    pthread_create(&b, ((void *)0), work, ((void *)0));
    for (int i = 0; i < 10; i++) put(i);
    pthread_mutex_lock(&lock);
    closed = 1;
    pthread_cond_broadcast(&more);
    pthread_mutex_unlock(&lock);
    pthread_join(a, ((void *)0));
    pthread_join(b, ((void *)0));
    pthread_mutex_lock(&lock);
    printf("%ld\n", sum);
    pthread_mutex_unlock(&lock);
    return 0;
}
