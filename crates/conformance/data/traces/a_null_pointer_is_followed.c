struct part {
  int k;
} *p;
int main(void) {
  return p->k;
}
