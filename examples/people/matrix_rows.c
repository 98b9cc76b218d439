/* A product of matrices; each thread computes one row, which its argument names.
   Report: `a` and `b` are unshared, since they are written before the first thread starts. Suspect
   without a race are `c`, of which each thread writes a row of its own and main reads all behind the
   joins, and the members of `jobs`, of which main writes an element for a thread that isn't started
   yet, and reads it behind the join. */
#include <pthread.h>
#include <stdio.h>
#include <stdlib.h>

#define N 8

static int a[N][N], b[N][N], c[N][N];

struct job {
    int row;
    long operations;
};

static void *multiply(void *arg)
{
    struct job *job = arg;

    for (int j = 0; j < N; j++) {
        int sum = 0;
        for (int k = 0; k < N; k++) {
            sum += a[job->row][k] * b[k][j];
            job->operations++;
        }
        c[job->row][j] = sum;
    }
    pthread_exit(NULL);
}

int main(void)
{
    pthread_t threads[N];
    struct job jobs[N];
    long operations = 0;

    for (int i = 0; i < N; i++)
        for (int j = 0; j < N; j++) {
            a[i][j] = i + j;
            b[i][j] = i == j;
        }
    for (int i = 0; i < N; i++) {
        jobs[i].row = i;
        jobs[i].operations = 0;
        if (pthread_create(&threads[i], NULL, multiply, &jobs[i]) != 0) {
            perror("pthread_create");
            exit(EXIT_FAILURE);
        }
    }
    for (int i = 0; i < N; i++) {
        pthread_join(threads[i], NULL);
        operations += jobs[i].operations;
    }
    for (int i = 0; i < N; i++) {
        for (int j = 0; j < N; j++)
            printf("%4d", c[i][j]);
        putchar('\n');
    }
    printf("%ld operations\n", operations);
    return 0;
}
