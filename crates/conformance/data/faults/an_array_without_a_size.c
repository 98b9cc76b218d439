int main(void) {
  int row[];
  return 0;
}
