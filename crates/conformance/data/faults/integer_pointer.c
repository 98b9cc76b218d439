int *p = (int *)5; int main(void) { return 0; }
