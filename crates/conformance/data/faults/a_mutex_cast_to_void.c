struct queue { pthread_mutex_t lock; } q;
void work(void) {
  (void)q.lock;
}
