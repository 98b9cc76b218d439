void give(int *p);
void work(void) {
  give(1);
}
