int main(void) {
  int row[2] = 5;
  return row[0];
}
