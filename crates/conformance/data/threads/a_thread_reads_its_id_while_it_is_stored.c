pthread_t id;
int same;

void *w(void *q) {
  same = pthread_equal(id, pthread_self());
  return 0;
}

int main(void) {
  pthread_create(&id, 0, w, 0);
  pthread_join(id, 0);
  return 0;
}
