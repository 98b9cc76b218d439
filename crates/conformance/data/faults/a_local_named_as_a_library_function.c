int main(void) {
  int free = 1;
  return free - 1;
}
