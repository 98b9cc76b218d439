int f(n) int n; { return n; }
int main(void) { return f(0); }
