int log_all(const char *format, ...);
typedef int sum(int, ...);
sum sum_all;
int main(void) {
  return printf("%d %c", 1, 'x') < 0;
}
