struct row {
  int *at;
  void *any;
  void (*run)(int);
};

int x, y, z, k;

void set(int to) {
  k = to;
}

struct row table[2] = { { &x, &y, set }, { 0, &z, 0 } };
pthread_t t;

void *w(void *q) {
  int *p = table[0].any;
  *table[1].at = 1;
  *p = 1;
  table[0].run(1);
  return 0;
}

int main(void) {
  pthread_create(&t, 0, w, 0);
  x = 2;
  z = 2;
  table[0].run(2);
  return 0;
}
