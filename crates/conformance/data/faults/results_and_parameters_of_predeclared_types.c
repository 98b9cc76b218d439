void none(void);
int number(int n);
pthread_t thread(pthread_t t);
pthread_attr_t *attributes(pthread_attr_t *);
void *find(char list[3], char text[], int way(void));
void *find(char *list, char *text, int (*way)(void));
static int sizes(char list[3]) {
  char told[sizeof list == 8 && sizeof *list == 1 ? 1 : -1];
  char *p = list;
  return p == list;
}
int main(void) {
  none();
  return sizes("ab") + number(1) + (find("a", "b", 0) == 0);
}
