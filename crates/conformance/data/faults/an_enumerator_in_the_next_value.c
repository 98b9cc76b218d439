enum { first = 3, second = first + 1 };
int main(void) {
  return second - 4;
}
