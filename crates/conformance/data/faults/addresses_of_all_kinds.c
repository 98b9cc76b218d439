int row[3], rows[2][2], n, k;
struct list { int n, row[2]; } l;
extern int later, open[];
int *end = &l.row[2], (*last)[2] = &rows[2], *inner = rows[1], (*behind)[3] = &row + 1;
struct list *next = &l + 1, *also = &(&l)[1];
int *one = &n + 1, *first = *&row, *in = (&k), *same = &*&*row, *cast = (int *)(void *)&l.n;
int *all[2] = {&n, &k + (sizeof(int) - 3)}, *other = &later, *any = &open[7];
int later, open[8];
int main(void) {
  static struct node { struct node *self; } node = {&node};
  return node.self != &node;
}
