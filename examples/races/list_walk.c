/* A walk without the lock: `push` takes the lock, `sum` doesn't. head races, and heap@.. (node.value, node.next) don't:
   a node is whole before head leads to it, and no later write comes. */
#include <pthread.h>
#include <stdio.h>
#include <stdlib.h>

struct node {
    int value;
    struct node *next;
};

static pthread_mutex_t lock = PTHREAD_MUTEX_INITIALIZER;
static struct node *head;

static void push(int value) {
    struct node *made = malloc(sizeof(struct node));
    if (made == NULL) exit(1);
    made->value = value;
    pthread_mutex_lock(&lock);
    made->next = head;
    head = made;
    pthread_mutex_unlock(&lock);
}

static void *walk(void *unused) {
    int sum = 0;
    for (struct node *at = head; at != NULL; at = at->next) sum += at->value;
    printf("%d\n", sum);
    return unused;
}

int main(void) {
    pthread_t walker;
    push(1);
    push(2);
    pthread_create(&walker, NULL, walk, NULL);
    push(3);
    push(4);
    pthread_join(walker, NULL);
    return 0;
}
