int main(void) { { typedef int T; } T n; return 0; }
