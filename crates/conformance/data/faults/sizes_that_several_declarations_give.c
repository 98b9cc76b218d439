extern int row[];
extern int row[3];
extern int row[];
int row[] = {1, 2};
int first(int (*)[]), first(int (*all)[3]), first(int (*)[]);
int first(int (*all)[3]) {
  return (*all)[2];
}
extern char (*open)[];
extern char (*open)[4];
char (*open)[] = 0;
int main(void) {
  int (*p)[3] = &row;
  char given[sizeof row == 12 && sizeof *open == 4 ? 1 : -1] = {0};
  return first(p) + given[0];
}
