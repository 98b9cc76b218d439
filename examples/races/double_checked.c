/* Double-checked lock: `table` is looked at without the lock first. That read races with the write under the lock,
   and so do the reads of the table's entries behind it. table and heap@.. race. */
#include <pthread.h>
#include <stdio.h>
#include <stdlib.h>

static pthread_mutex_t lock = PTHREAD_MUTEX_INITIALIZER;
static int *table;

static int entry(int number) {
    if (table == NULL) {
        pthread_mutex_lock(&lock);
        if (table == NULL) {
            int *made = malloc(4 * sizeof(int));
            if (made == NULL) exit(1);
            table = made;
            for (int i = 0; i < 4; i++) made[i] = i * i;
        }
        pthread_mutex_unlock(&lock);
    }
    return table[number];
}

static void *work(void *unused) {
    int sum = 0;
    for (int i = 0; i < 4; i++) sum += entry(i);
    printf("%d\n", sum);
    return unused;
}

int main(void) {
    pthread_t other;
    pthread_create(&other, NULL, work, NULL);
    work(NULL);
    pthread_join(other, NULL);
    return 0;
}
