int main(void) {
  return strlen("abc");
}
