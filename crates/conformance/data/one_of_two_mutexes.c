int n; pthread_mutex_t a; pthread_mutex_t b; pthread_t t;
void *w(void *q) {
pthread_mutex_lock(&a);
pthread_mutex_lock(&b);
n = 1;
return 0; }
int main(void) {
pthread_create(&t, 0, w, 0);
pthread_mutex_lock(&b);
n = 2;
return 0; }
