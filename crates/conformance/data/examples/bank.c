# 0 "bank.c"
# 0 "<built-in>"
# 0 "<command-line>"
# 1 "bank.c"


# 1 "../include/pthread.h" 1
# 4 "bank.c" 2
# 1 "../include/stdlib.h" 1
# 5 "bank.c" 2

struct account {
    pthread_mutex_t lock;
    long balance;
};

static struct account accounts[4];
static pthread_mutex_t total_lock = PTHREAD_MUTEX_INITIALIZER;
static long total;

static void deposit(int number, long amount) {
    struct account *account = &accounts[number];
    pthread_mutex_lock(&account->lock);
    account->balance += amount;
    pthread_mutex_unlock(&account->lock);
    pthread_mutex_lock(&total_lock);
    total += amount;
    pthread_mutex_unlock(&total_lock);
}

static void *customer(void *unused) {
    for (int i = 0; i < 100; i++) deposit(rand() % 4, 10);
    return unused;
}

int main(void) {
    pthread_t threads[2];
    for (int i = 0; i < 2; i++) pthread_create(&threads[i], ((void *)0), customer, ((void *)0));
    deposit(0, 5);
    for (int i = 0; i < 2; i++) pthread_join(threads[i], ((void *)0));
    return 0;
}
