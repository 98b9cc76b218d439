// A token is as long as it can be (C99 6.4, 4); a comment is a blank (C99 6.4.9, 5.1.1.2).
int n, m, *p;
struct s { int a; struct s *next; } v, *q = &v;
int main(void) {
  int x = 1, y = 2;
  x = x+++y;
  x = x---y;
  x = y<<1>>1<=y>=x<y>x==y!=x&&y||x;
  x <<= 1; x >>= 1; x += y; x -= y; x *= y; x /= y; x %= y + 3; x &= y; x ^= y; x |= y;
  x = x&y^y|x;
  x = x ? y : x, y;
  x = -y + ~y + !y;
  p = &n; *p = q->a; q->next->a--; --*p;
  x = y/**//y/***/;
  n = x/* /* */;
  return//x*/
    n;
}
