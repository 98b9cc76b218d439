struct shape { int x; };
void work(int n, enum shape *s);
