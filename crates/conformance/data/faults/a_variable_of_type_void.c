void work(int n) {
  void nothing;
}
