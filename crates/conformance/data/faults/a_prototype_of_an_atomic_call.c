int atomic_get(int *);
int work(int *p) {
  return atomic_get(p);
}
