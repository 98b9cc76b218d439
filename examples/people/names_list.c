/* Threads put copies of names into one sorted list, each name once.
   Report: the list and its nodes are guarded by `head_lock`. The texts that strdup makes are
   suspect: each is written before the lock is taken, in string.h as lsrace models it, and compared
   under the lock when it is in the list. No race; with strdup called under the lock they are
   guarded. */
#include <pthread.h>
#include <stdio.h>
#include <stdlib.h>
#include <string.h>

struct node {
    char *name;
    int times;
    struct node *next;
};

static struct node *head;
static pthread_mutex_t head_lock = PTHREAD_MUTEX_INITIALIZER;

static int insert(const char *name)
{
    struct node *node = malloc(sizeof(struct node));
    char *copy = strdup(name);
    struct node **at;

    if (node == NULL || copy == NULL) {
        free(node);
        free(copy);
        return -1;
    }
    pthread_mutex_lock(&head_lock);
    for (at = &head; *at != NULL && strcmp((*at)->name, copy) < 0; at = &(*at)->next)
        continue;
    if (*at != NULL && strcmp((*at)->name, copy) == 0) {
        (*at)->times++;
        free(node);
        free(copy);
    } else {
        node->name = copy;
        node->times = 1;
        node->next = *at;
        *at = node;
    }
    pthread_mutex_unlock(&head_lock);
    return 0;
}

static void *reader(void *arg)
{
    static const char *const names[] = { "ada", "grace", "barbara", "ada", NULL };

    (void)arg;
    for (int i = 0; names[i] != NULL; i++) {
        if (insert(names[i]) != 0)
            perror("insert");
    }
    return NULL;
}

static void print_all(void)
{
    pthread_mutex_lock(&head_lock);
    for (struct node *node = head; node != NULL; node = node->next)
        printf("%-10s %d\n", node->name, node->times);
    pthread_mutex_unlock(&head_lock);
}

int main(void)
{
    pthread_t threads[3];

    for (int i = 0; i < 3; i++) {
        if (pthread_create(&threads[i], NULL, reader, NULL) != 0) {
            fprintf(stderr, "cannot create thread %d\n", i);
            exit(1);
        }
    }
    for (int i = 0; i < 3; i++)
        pthread_join(threads[i], NULL);
    print_all();
    return 0;
}
