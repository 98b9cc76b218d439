enum { three = 3 };
typedef char row[1024];
row most[1024];
extern int open[], (*pointer)[];
int sum(int list[], int rows[][three], int (*last)[]);
int (*none)[] = 0, given[] = {1, 2, three};
struct list { int n, rest[1048576 / 4 >> 16]; } l;
int main(void) {
  int all['a' - 94][1] = {{1}};
  return all[0][0] - given[0] + l.n;
}
