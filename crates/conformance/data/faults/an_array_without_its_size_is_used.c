extern int row[][3];
extern char word[];
static int first(void) {
  return (*&word)[1] + *word + row[0][1] + sizeof row[0] + (*row)[2];
}
int row[2][3];
char word[] = {0, 0};
int main(void) {
  return first() - 12;
}
