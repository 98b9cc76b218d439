enum { limit = 3 };
void work(void) {
  limit = 4;
}
