/* A bank with a lock for each account, in an array. One name, accounts[].lock, stands for all of these locks, so the analysis
   can't tell that the right one is held: the balances are suspect. The total has one lock of its own, and is guarded. */
#include <pthread.h>
#include <stdlib.h>

struct account {
    pthread_mutex_t lock;
    long balance;
};

static struct account accounts[4];
static pthread_mutex_t total_lock = PTHREAD_MUTEX_INITIALIZER;
static long total;

static void deposit(int number, long amount) {
    struct account *account = &accounts[number];
    pthread_mutex_lock(&account->lock);
    account->balance += amount;
    pthread_mutex_unlock(&account->lock);
    pthread_mutex_lock(&total_lock);
    total += amount;
    pthread_mutex_unlock(&total_lock);
}

static void *customer(void *unused) {
    for (int i = 0; i < 100; i++) deposit(rand() % 4, 10);
    return unused;
}

int main(void) {
    pthread_t threads[2];
    for (int i = 0; i < 2; i++) pthread_create(&threads[i], NULL, customer, NULL);
    deposit(0, 5);
    for (int i = 0; i < 2; i++) pthread_join(threads[i], NULL);
    return 0;
}
