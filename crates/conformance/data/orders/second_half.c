void both(void);
pthread_mutex_t b;
int main(void) {
  both();
  return 0;
}
