/* A thread pool: workers take tasks from a list under the pool's lock, and run them without it.
   Report: the list, the flag and `sum` are guarded. Suspect are the members of a task. They are
   written before the task is put on the list, and `run` and `argument` are read after it was taken
   off, by the only thread that has it then: no race, but the rules know of no hand-over. Copied to
   locals under the lock, and written under it, they would be guarded. */
#include <pthread.h>
#include <stdio.h>
#include <stdlib.h>

#define WORKERS 4
#define TASKS 32

typedef struct task {
    void (*run)(void *);
    void *argument;
    struct task *next;
} task_t;

typedef struct {
    pthread_mutex_t lock;
    pthread_cond_t not_empty;
    task_t *head;
    task_t *tail;
    int shutdown;
    pthread_t threads[WORKERS];
} thread_pool_t;

static pthread_mutex_t sum_lock = PTHREAD_MUTEX_INITIALIZER;
static long sum;

static void *worker(void *arg)
{
    thread_pool_t *pool = arg;

    for (;;) {
        task_t *task;

        pthread_mutex_lock(&pool->lock);
        while (pool->head == NULL && !pool->shutdown)
            pthread_cond_wait(&pool->not_empty, &pool->lock);
        if (pool->head == NULL) {
            pthread_mutex_unlock(&pool->lock);
            return NULL;
        }
        task = pool->head;
        pool->head = task->next;
        if (pool->head == NULL)
            pool->tail = NULL;
        pthread_mutex_unlock(&pool->lock);

        task->run(task->argument);
        free(task);
    }
}

static int pool_init(thread_pool_t *pool)
{
    pthread_mutex_init(&pool->lock, NULL);
    pthread_cond_init(&pool->not_empty, NULL);
    pool->head = pool->tail = NULL;
    pool->shutdown = 0;
    for (int i = 0; i < WORKERS; i++) {
        if (pthread_create(&pool->threads[i], NULL, worker, pool) != 0)
            return -1;
    }
    return 0;
}

static int pool_submit(thread_pool_t *pool, void (*run)(void *), void *argument)
{
    task_t *task = malloc(sizeof *task);

    if (task == NULL)
        return -1;
    task->run = run;
    task->argument = argument;
    task->next = NULL;
    pthread_mutex_lock(&pool->lock);
    if (pool->tail != NULL)
        pool->tail->next = task;
    else
        pool->head = task;
    pool->tail = task;
    pthread_cond_signal(&pool->not_empty);
    pthread_mutex_unlock(&pool->lock);
    return 0;
}

static void pool_shutdown(thread_pool_t *pool)
{
    pthread_mutex_lock(&pool->lock);
    pool->shutdown = 1;
    pthread_cond_broadcast(&pool->not_empty);
    pthread_mutex_unlock(&pool->lock);
    for (int i = 0; i < WORKERS; i++)
        pthread_join(pool->threads[i], NULL);
    pthread_cond_destroy(&pool->not_empty);
    pthread_mutex_destroy(&pool->lock);
}

static void add(void *arg)
{
    const int *number = arg;

    pthread_mutex_lock(&sum_lock);
    sum += *number;
    pthread_mutex_unlock(&sum_lock);
}

int main(void)
{
    static thread_pool_t pool;
    static int numbers[TASKS];

    for (int i = 0; i < TASKS; i++)
        numbers[i] = i + 1;
    if (pool_init(&pool) != 0) {
        fprintf(stderr, "cannot start the workers\n");
        return EXIT_FAILURE;
    }
    for (int i = 0; i < TASKS; i++) {
        if (pool_submit(&pool, add, &numbers[i]) != 0) {
            perror("pool_submit");
            break;
        }
    }
    pool_shutdown(&pool);
    pthread_mutex_lock(&sum_lock);
    printf("the sum is %ld\n", sum);
    pthread_mutex_unlock(&sum_lock);
    return EXIT_SUCCESS;
}
