int main(void) {
  return 0;
}
int n = sizeof(main());
