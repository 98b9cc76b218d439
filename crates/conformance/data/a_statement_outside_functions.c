int n;
n = 1;
int main(void) { return 0; }
