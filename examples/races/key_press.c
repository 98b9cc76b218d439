/* What is read decides: the volume is changed without the lock where the key is `m`, and with it where the key is `+`.
   volume races. */
#include <pthread.h>
#include <stdio.h>

static pthread_mutex_t lock = PTHREAD_MUTEX_INITIALIZER;
static int volume = 5;

static void *player(void *unused) {
    for (int i = 0; i < 10; i++) {
        pthread_mutex_lock(&lock);
        printf("volume %d\n", volume);
        pthread_mutex_unlock(&lock);
    }
    return unused;
}

int main(void) {
    pthread_t thread;
    pthread_create(&thread, NULL, player, NULL);
    for (int i = 0; i < 4; i++) {
        int key = getchar();
        if (key == '+') {
            pthread_mutex_lock(&lock);
            volume++;
            pthread_mutex_unlock(&lock);
        } else if (key == 'm') {
            volume = 0;
        }
    }
    pthread_join(thread, NULL);
    return 0;
}
