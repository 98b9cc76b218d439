/* After the unlock: a job is taken from the list under the lock, but its count is raised behind it, while another
   thread that has the same job raises it too. heap@.. (jobs.count) races, first is guarded. */
#include <pthread.h>
#include <stdio.h>
#include <stdlib.h>

struct job {
    int count;
    struct job *next;
};

static pthread_mutex_t lock = PTHREAD_MUTEX_INITIALIZER;
static struct job *first;

static struct job *look(void) {
    pthread_mutex_lock(&lock);
    struct job *found = first;
    pthread_mutex_unlock(&lock);
    return found;
}

static void *work(void *unused) {
    struct job *mine = look();
    if (mine != NULL) mine->count++;
    return unused;
}

int main(void) {
    pthread_t a, b;
    struct job *made = malloc(sizeof(struct job));
    if (made == NULL) return 1;
    made->count = 0;
    made->next = NULL;
    pthread_mutex_lock(&lock);
    first = made;
    pthread_mutex_unlock(&lock);
    pthread_create(&a, NULL, work, NULL);
    pthread_create(&b, NULL, work, NULL);
    pthread_join(a, NULL);
    pthread_join(b, NULL);
    return 0;
}
