int a; int b; pthread_mutex_t m; pthread_t t; pthread_t u;
void *w(void *q) { a = 1; b = 1; return 0; }
int main(void) {
pthread_create(&t, 0, w, 0);
pthread_mutex_lock(&m);
a = 2;
pthread_mutex_unlock ( & m ) ;
b = 2;
return 0; }
