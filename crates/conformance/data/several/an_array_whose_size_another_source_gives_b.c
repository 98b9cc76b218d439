int v[4];

void *w(void *q) {
  v[2] = 1;
  return 0;
}
