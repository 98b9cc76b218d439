int row[2];
void work(void) {
  row++;
}
