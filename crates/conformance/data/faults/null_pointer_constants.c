enum { none };
int *p = (int *)0, *q = none, *r = (void *)(1 - 1), *s = '\0';
void (*way)(void) = 0;
static int *find(int *from) {
  return from ? 0 : (void *)0;
}
int main(void) {
  p = 0L;
  _Bool known = p, also = (_Bool)find(0);
  return known || also || q != 0 || (void *)0 != r || s != 0;
}
