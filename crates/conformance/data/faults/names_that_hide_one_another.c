char x[1];
char outside[sizeof x == 1 ? 1 : -1];
int main(void) {
  char before[sizeof x == 1 ? 1 : -1];
  char x[2];
  char own[sizeof x == 2 ? 1 : -1];
  {
    char outer[sizeof x == 2 ? 1 : -1];
    char x[3];
    char inner[sizeof x == 3 ? 1 : -1];
  }
  char behind[sizeof x == 2 ? 1 : -1];
  return 0;
}
char last[sizeof x == 1 ? 1 : -1];
extern char x[1];
