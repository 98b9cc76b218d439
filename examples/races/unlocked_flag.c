/* An unlocked flag: `ready` says that `message` is there, and neither is under a lock. ready and message race. */
#include <pthread.h>
#include <stdio.h>

static int ready;
static int message;

static void *reader(void *unused) {
    for (int i = 0; i < 1000; i++) {
        if (ready) {
            printf("%d\n", message);
            break;
        }
    }
    return unused;
}

int main(void) {
    pthread_t thread;
    pthread_create(&thread, NULL, reader, NULL);
    message = 42;
    ready = 1;
    message = 43;
    pthread_join(thread, NULL);
    return 0;
}
