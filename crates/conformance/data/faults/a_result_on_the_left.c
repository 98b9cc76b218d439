int *find(void);
int get(void);
void work(void) {
  *find() = 1;
  get() = 1;
}
