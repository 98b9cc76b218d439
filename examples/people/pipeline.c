/* Two stages with queues between them: an item is made by main, changed by the cook and let go by
   main.
   Report: each queue is guarded by its own lock, though the same functions serve both. The items are
   suspect, without a race: an item goes from hand to hand, at each time one thread has it, and the
   rules know of no hand-over. `next` is written under the lock of the queue where the item stands,
   of which there are two. */
#include <pthread.h>
#include <semaphore.h>
#include <stdio.h>
#include <stdlib.h>

struct item {
    int value;
    struct item *next;
};

struct queue {
    pthread_mutex_t lock;
    sem_t items;
    struct item *head, *tail;
};

static struct queue raw, cooked;

static void queue_init(struct queue *q)
{
    pthread_mutex_init(&q->lock, NULL);
    if (sem_init(&q->items, 0, 0) != 0) {
        perror("sem_init");
        exit(EXIT_FAILURE);
    }
    q->head = q->tail = NULL;
}

static void push(struct queue *q, struct item *item)
{
    pthread_mutex_lock(&q->lock);
    item->next = NULL;
    if (q->tail == NULL)
        q->head = item;
    else
        q->tail->next = item;
    q->tail = item;
    pthread_mutex_unlock(&q->lock);
    sem_post(&q->items);
}

static struct item *pop(struct queue *q)
{
    struct item *item;

    sem_wait(&q->items);
    pthread_mutex_lock(&q->lock);
    item = q->head;
    if (item != NULL) {
        q->head = item->next;
        if (q->head == NULL)
            q->tail = NULL;
    }
    pthread_mutex_unlock(&q->lock);
    return item;
}

static void *cook(void *arg)
{
    struct item *item;

    (void)arg;
    while ((item = pop(&raw)) != NULL) {
        item->value *= 2;
        push(&cooked, item);
    }
    return NULL;
}

int main(void)
{
    pthread_t cook_thread;

    queue_init(&raw);
    queue_init(&cooked);
    if (pthread_create(&cook_thread, NULL, cook, NULL) != 0)
        return EXIT_FAILURE;
    for (int i = 0; i < 10; i++) {
        struct item *item = malloc(sizeof *item);
        if (item == NULL)
            break;
        item->value = i;
        push(&raw, item);
    }
    sem_post(&raw.items); /* with no item: the end */
    for (int i = 0; i < 10; i++) {
        struct item *item = pop(&cooked);
        if (item == NULL)
            break;
        printf("%d\n", item->value);
        free(item);
    }
    pthread_join(cook_thread, NULL);
    return EXIT_SUCCESS;
}
