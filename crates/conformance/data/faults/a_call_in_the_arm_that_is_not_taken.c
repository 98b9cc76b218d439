int get(void);
int n = 1 ? 2 : get();
