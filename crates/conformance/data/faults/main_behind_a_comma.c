int main(void) {
  return getchar() ? 0 : (0, main)();
}
