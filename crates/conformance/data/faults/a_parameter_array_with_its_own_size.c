int work(char list[3]) {
  char told[sizeof list == 3 ? 1 : -1];
  return 0;
}
