static int n;
void set_other(void);

static void set(void) {
  n = 1;
}

void *w(void *q) {
  set();
  return 0;
}

int main(void) {
  pthread_t t;
  pthread_create(&t, 0, w, 0);
  set();
  set_other();
  return 0;
}
