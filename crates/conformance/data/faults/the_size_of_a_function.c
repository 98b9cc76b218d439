int main(void) {
  return sizeof(int) - sizeof(int (void));
}
