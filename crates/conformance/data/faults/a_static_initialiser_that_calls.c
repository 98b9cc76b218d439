int get(void);
int n = get();
