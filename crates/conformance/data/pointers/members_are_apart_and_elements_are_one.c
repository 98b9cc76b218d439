struct pair {
  int a, b;
};

struct pair p, v[2];
int d[2][2];
pthread_t t;

void *w(void *q) {
  p.a = 1;
  v[0].a = 1;
  d[0][1] = 1;
  return 0;
}

int main(void) {
  struct pair *at = v;
  pthread_create(&t, 0, w, 0);
  p.b = 2;
  at[1].a = 2;
  (at + 1)->b = 2;
  d[1][0] = 2;
  return 0;
}
