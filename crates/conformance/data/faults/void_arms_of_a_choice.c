void left(void) {
}
void right(void) {
}
int main(void) {
  getchar() ? left() : right();
  (void)(1 ? 2 : 3);
  return 0;
}
