void free(void *memory);
int main(void) {
  free(0);
  return 0;
}
