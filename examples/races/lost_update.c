/* Lost update: both threads read `balance`, add, and write it back, without a lock. One of the deposits can be
   lost. balance races. */
#include <pthread.h>
#include <stdio.h>

static int balance;

static void *deposit(void *amount) {
    int *sum = amount;
    balance = balance + *sum;
    return NULL;
}

int main(void) {
    pthread_t first, second;
    int ten = 10, twenty = 20;
    pthread_create(&first, NULL, deposit, &ten);
    pthread_create(&second, NULL, deposit, &twenty);
    pthread_join(first, NULL);
    pthread_join(second, NULL);
    printf("%d\n", balance);
    return 0;
}
