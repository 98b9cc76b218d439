# 0 "bank.c"
# 1 "bank.c"
# 1 "queue.h" 1
typedef struct job { int to; long amount; struct job *next; } job;
typedef struct { pthread_mutex_t lock; pthread_cond_t more; job *head; int closed; } queue;
# 2 "bank.c" 2
