struct pair {
  int a, b;
};

struct pair s;
void *any = &s;
pthread_t t;

void *w(void *q) {
  ((struct pair *)any)->b = 1;
  return 0;
}

int main(void) {
  pthread_create(&t, 0, w, 0);
  any = &s;
  s.a = 2;
  s.b = 2;
  return 0;
}
