pthread_mutex_t m;
int each, past, fallen, last, c;
pthread_t t;

void *w(void *q) {
  pthread_mutex_lock(&m);
  each = 1;
  past = 1;
  fallen = 1;
  last = 1;
  pthread_mutex_unlock(&m);
  return 0;
}

void each_way_locks(void) {
  switch (c) {
  default:
    pthread_mutex_lock(&m);
    break;
  case 1:
  case 2:
    pthread_mutex_lock(&m);
  }
  each = 2;
  pthread_mutex_unlock(&m);
}

void without_default(void) {
  switch (c) {
  case 1:
    pthread_mutex_lock(&m);
  }
  past = 2;
}

void from_case_to_case(void) {
  pthread_mutex_lock(&m);
  switch (c) {
  case 0:
    pthread_mutex_unlock(&m);
  case 1:
    fallen = 2;
    break;
  default:
    last = 2;
  }
}

int main(void) {
  pthread_create(&t, 0, w, 0);
  each_way_locks();
  without_default();
  from_case_to_case();
  return 0;
}
