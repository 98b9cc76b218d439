char *find(int n);
int main(void) {
  return find(1) == 0;
}
