int n;
void *w(void *q) { n = 1; return 0; }
int main(void) { pthread_t t; pthread_create(&t, 0, w, 0); n = 2; return 0; }
