void work(pthread_t t) {
  do
    ;
  while (t);
}
