struct job {
  int to, by;
  struct job *next;
};

struct queue {
  pthread_mutex_t lock;
  pthread_cond_t more;
  struct job *first;
  int is_closed;
};

static struct queue work;
static pthread_mutex_t book = PTHREAD_MUTEX_INITIALIZER;
static int sums[4];
static int lost;

static void put(struct queue *to, int number) {
  struct job *job = malloc(sizeof(struct job));
  if (job == 0)
    return;
  job->to = number % 4;
  job->by = number;
  pthread_mutex_lock(&to->lock);
  job->next = to->first;
  to->first = job;
  pthread_cond_signal(&to->more);
  pthread_mutex_unlock(&to->lock);
}

static struct job *take(struct queue *from) {
  struct job *job;
  pthread_mutex_lock(&from->lock);
  while (from->first == 0 && !from->is_closed)
    pthread_cond_wait(&from->more, &from->lock);
  job = from->first;
  if (job)
    from->first = job->next;
  pthread_mutex_unlock(&from->lock);
  return job;
}

static void *worker(void *q) {
  struct queue *from = q;
  struct job *job;
  while ((job = take(from)) != 0) {
    pthread_mutex_lock(&book);
    sums[job->to] += job->by;
    pthread_mutex_unlock(&book);
    free(job);
  }
  return 0;
}

int main(void) {
  pthread_t a, b;
  pthread_create(&a, 0, worker, &work);
  pthread_create(&b, 0, worker, &work);
  for (int i = 0; i < 100; i++)
    put(&work, i);
  pthread_mutex_lock(&work.lock);
  work.is_closed = 1;
  pthread_cond_broadcast(&work.more);
  pthread_mutex_unlock(&work.lock);
  pthread_join(a, 0);
  pthread_join(b, 0);
  lost = sums[0];
  return 0;
}
