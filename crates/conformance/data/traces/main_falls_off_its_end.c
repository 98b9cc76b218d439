int n;
int main(void) {
  n = 1;
}
