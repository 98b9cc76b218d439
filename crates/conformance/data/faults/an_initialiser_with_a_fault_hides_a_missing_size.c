int main(void) {
  int row[] = missing;
  return 0;
}
