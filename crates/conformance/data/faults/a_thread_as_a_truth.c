pthread_t t;
int main(void) {
  _Bool known = t;
  return known;
}
