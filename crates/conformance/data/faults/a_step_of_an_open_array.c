extern int row[];
int (*work(void))[3] {
  return &row + 1;
}
