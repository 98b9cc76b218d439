void *memcpy(void *, const void *, unsigned long);
void work(char *to, char *from) {
  memcpy(to, from, 3);
}
