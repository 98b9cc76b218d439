static char text[2];
static char *find(void) {
  return text;
}
int main(void) {
  char *(*way)(void) = find;
  return *way();
}
