struct pair { int left; };
void work(void) {
  pair.left = 1;
}
