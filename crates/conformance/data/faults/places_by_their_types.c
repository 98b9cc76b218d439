struct pair { int count; char byte; } v, *p = &v;
int n, row[3], *q = row;
char text[sizeof "ab" == 3 && sizeof &"ab" == 8 && sizeof *"ab" == 1 ? 1 : -1];
char members[sizeof v.count == 4 && sizeof v.byte == 1 && sizeof p->count == 4 && sizeof p->byte == 1 ? 1 : -1];
char elements[sizeof q[0] == 4 && sizeof *q == 4 && sizeof "ab"[0] == 1 && sizeof 0 == 4 ? 1 : -1];
char steps[sizeof n++ == 4 && sizeof --v.byte == 1 && sizeof(v.byte = 300L) == 1 && sizeof(n += 1L) == 4 ? 1 : -1];
char reads[sizeof(0, n) == 4 && sizeof(0, row) == 8 && sizeof +v.byte == 4 && sizeof(n + 1L) == 8 ? 1 : -1];
int main(void) {
  char (*whole)[3] = &"ab";
  int *one = &v.count, *also = &p->count, *element = &q[0];
  "ab"[1] = 'c';
  v.count = 1;
  p->count = 2;
  q[0] = 3;
  n++;
  n = 5;
  n += 5;
  (void)n;
  (void)v.byte;
  return (*whole)[1] - 'b' + *one - *also + *element;
}
