void work(int (*way)(int)) {
  (int (*)(int, ...))way;
}
