int main(void) {
  return sizeof(0 && missing);
}
