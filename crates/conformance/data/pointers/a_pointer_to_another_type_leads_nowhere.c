struct left {
  int n;
};

struct right {
  int n;
};

struct left s;
int n;
pthread_t t;

void *w(void *q) {
  s.n = 1;
  n = 1;
  return 0;
}

int main(void) {
  void *any = &s;
  struct right *other = any;
  pthread_create(&t, 0, w, 0);
  other->n = 2;
  any = &n;
  *(long *)any = 2;
  return 0;
}
