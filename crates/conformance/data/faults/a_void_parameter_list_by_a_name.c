typedef void nothing;
int get(nothing) {
  return 0;
}
int main(void) {
  return get();
}
