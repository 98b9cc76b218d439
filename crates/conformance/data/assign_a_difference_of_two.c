int a; int b; pthread_mutex_t m; pthread_t t; pthread_t u;
void *w(void *q) { a = 1; b = 1; return 0; }
int main(void) {
pthread_create(&t, 0, w, 0);
a=7-b;
b = a - b;
return 0; }
