/* Two accounts with a lock each; a transfer takes both locks, that of the account with the lower
   number first.
   Report: both balances are suspect, without a race. In each branch of lock_both the locks are named
   by other expressions, and each of them can mean either mutex, by the call: where the branches
   meet, the rules find no lock that is surely held on both ways. With one lock for all accounts, or
   locked in one order without a branch, the balances are guarded. */
#include <assert.h>
#include <pthread.h>
#include <stdio.h>
#include <stdlib.h>

typedef struct account {
    pthread_mutex_t lock;
    int number;
    long balance;
} account;

static account checking = { PTHREAD_MUTEX_INITIALIZER, 1, 1000 };
static account savings = { PTHREAD_MUTEX_INITIALIZER, 2, 5000 };

static void lock_both(account *a, account *b)
{
    if (a->number < b->number) {
        pthread_mutex_lock(&a->lock);
        pthread_mutex_lock(&b->lock);
    } else {
        pthread_mutex_lock(&b->lock);
        pthread_mutex_lock(&a->lock);
    }
}

static void unlock_both(account *a, account *b)
{
    pthread_mutex_unlock(&a->lock);
    pthread_mutex_unlock(&b->lock);
}

static int transfer(account *from, account *to, long amount)
{
    int rc = -1;

    assert(from != to && amount > 0);
    lock_both(from, to);
    if (from->balance >= amount) {
        from->balance -= amount;
        to->balance += amount;
        rc = 0;
    }
    unlock_both(from, to);
    return rc;
}

static void *save(void *arg)
{
    (void)arg;
    for (int i = 0; i < 100; i++)
        transfer(&checking, &savings, 5);
    return NULL;
}

static void *spend(void *arg)
{
    (void)arg;
    for (int i = 0; i < 100; i++)
        transfer(&savings, &checking, 3);
    return NULL;
}

int main(void)
{
    pthread_t a, b;

    if (pthread_create(&a, NULL, save, NULL) != 0 || pthread_create(&b, NULL, spend, NULL) != 0) {
        fprintf(stderr, "cannot create threads\n");
        return EXIT_FAILURE;
    }
    pthread_join(a, NULL);
    pthread_join(b, NULL);
    lock_both(&checking, &savings);
    printf("checking %ld, savings %ld\n", checking.balance, savings.balance);
    unlock_both(&checking, &savings);
    return EXIT_SUCCESS;
}
