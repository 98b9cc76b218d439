int n; pthread_mutex_t m; pthread_t t;
void *w(void *q) {
n = 1;
return 0; }
int main(void) {
pthread_mutex_lock(&m);
pthread_create(&t, 0, w, 0);
n = 2;
return 0; }
