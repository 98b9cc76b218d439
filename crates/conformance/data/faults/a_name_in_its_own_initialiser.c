int main(void) {
  int self = sizeof self;
  return self != sizeof(int);
}
