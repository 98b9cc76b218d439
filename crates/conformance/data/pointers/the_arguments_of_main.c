pthread_t t;

void *w(void *q) {
  char **words = q;
  words[0][0] = '-';
  return 0;
}

int main(int argc, char **argv) {
  pthread_create(&t, 0, w, argv);
  if (argc > 1)
    puts(argv[1]);
  return 0;
}
