struct pair { int a, b; } all[2], *p;
void work(void) {
  *p = all[1];
}
