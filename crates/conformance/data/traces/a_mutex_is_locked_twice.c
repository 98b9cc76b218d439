struct part {
  int k;
  pthread_mutex_t m[2];
} p;
int main(void) {
  pthread_mutex_lock(&p.m[0]);
  pthread_mutex_lock(&p.m[1]);
  pthread_mutex_lock(&p.m[0]);
  return 0;
}
