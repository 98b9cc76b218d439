int row[2], other[2];
void work(void) {
  row = other;
}
