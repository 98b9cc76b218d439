struct triple {
  int a, b, c;
};

void *element(void *q) {
  int *p = q;
  *p = 1;
  return 0;
}

void *member(void *q) {
  struct triple *p = q;
  p->a = 1;
  p->b = 1;
  return 0;
}

void *byte(void *q) {
  char *p = q;
  *p = 1;
  return 0;
}

int main(void) {
  pthread_t t;
  for (int i = 0; i < 2; i++) {
    int v[3] = { 1 };
    struct triple s = { 1 };
    char text[4] = "a";
    pthread_create(&t, 0, element, v);
    pthread_create(&t, 0, member, &s);
    pthread_create(&t, 0, byte, text);
  }
  return 0;
}
