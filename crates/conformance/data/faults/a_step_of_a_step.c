int work(int n) {
  return --n--;
}
