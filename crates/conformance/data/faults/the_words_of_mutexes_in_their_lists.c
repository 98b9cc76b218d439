struct queue { pthread_mutex_t lock; pthread_cond_t more; int n; };
struct queue q = {PTHREAD_MUTEX_INITIALIZER, PTHREAD_COND_INITIALIZER, 3};
pthread_mutex_t locks[2] = {PTHREAD_MUTEX_INITIALIZER};
int main(void) {
  pthread_mutex_t own = PTHREAD_MUTEX_INITIALIZER;
  pthread_mutex_lock(&own);
  pthread_mutex_unlock(&own);
  return q.n - 3;
}
