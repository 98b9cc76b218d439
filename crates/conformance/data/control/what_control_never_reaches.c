int a, b, c, d, e, f;
pthread_t t;

void *w(void *q) {
  a = 1;
  b = 1;
  c = 1;
  d = 1;
  e = 1;
  f = 1;
  return 0;
}

void set(void) {
  e = 2;
}

void returns(void) {
  return;
  a = 2;
  set();
}

void ends(void) {
  exit(1);
  b = 2;
}

void leaves(void) {
  pthread_exit(0);
  c = 2;
}

void jumps(void) {
  goto out;
  d = 2;
out:
  return;
}

int main(void) {
  pthread_create(&t, 0, w, 0);
  returns();
  ends();
  leaves();
  jumps();
  f = 2;
  return 0;
}
