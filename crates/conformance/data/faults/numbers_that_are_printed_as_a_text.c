int row[3];
void work(void) {
  puts(row);
}
