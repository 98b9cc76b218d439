int char n;
int main(void) {
  return *n + n();
}
