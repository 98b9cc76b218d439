int main(void) { if (1) int n; return 0; }
