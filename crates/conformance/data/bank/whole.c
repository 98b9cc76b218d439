# 0 "bank.c"
# 1 "bank.c"
# 1 "queue.h" 1
typedef struct job { int to; long amount; struct job *next; } job;
typedef struct { pthread_mutex_t lock; pthread_cond_t more; job *head; int closed; } queue;
# 2 "bank.c" 2
static pthread_mutex_t book = PTHREAD_MUTEX_INITIALIZER;
static long balance[8];
static queue q;
static int done;
static int errors;

static int put(queue *w, int to, long amount) {
  int rc = -1;
  job *j = malloc(sizeof *j);
  if (j == ((void *)0)) goto out;
  j->to = to;
  j->amount = amount;
  pthread_mutex_lock(&w->lock);
  j->next = w->head;
  w->head = j;
  pthread_cond_signal(&w->more);
  pthread_mutex_unlock(&w->lock);
  rc = 0;
out:
  return rc;
}

static job *take(queue *w) {
  job *j;
  pthread_mutex_lock(&w->lock);
  while (w->head == ((void *)0) && !w->closed)
    pthread_cond_wait(&w->more, &w->lock);
  j = w->head;
  if (j) w->head = j->next;
  pthread_mutex_unlock(&w->lock);
  return j;
}

static void *worker(void *arg) {
  queue *w = arg;
  job *j;
  while ((j = take(w)) != ((void *)0)) {
    pthread_mutex_lock(&book);
    balance[j->to] += j->amount;
    pthread_mutex_unlock(&book);
    free(j);
    done++;
  }
  return ((void *)0);
}

int main(void) {
  pthread_t a, b;
  pthread_create(&a, ((void *)0), worker, &q);
  pthread_create(&b, ((void *)0), worker, &q);
  for (int i = 0; i < 100; i++) {
    if (put(&q, i % 8, 10) != 0) errors++;
  }
  pthread_mutex_lock(&q.lock);
  q.closed = 1;
  pthread_cond_broadcast(&q.more);
  pthread_mutex_unlock(&q.lock);
  pthread_join(a, ((void *)0));
  pthread_join(b, ((void *)0));
  printf("%ld %d\n", balance[0], done);
  return errors != 0;
}
