int area(int w, int h);
int work(void) {
  return area(3);
}
