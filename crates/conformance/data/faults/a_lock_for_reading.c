int pthread_rwlock_rdlock(void *);
int work(void *lock) {
  return pthread_rwlock_rdlock(lock);
}
