int *p = (int *)0;
void *q = (void *)0;

int main(void) {
  return p == 0 && !q;
}
