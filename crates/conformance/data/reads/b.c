pthread_mutex_t m; int n;
void *w(void *q) {
pthread_mutex_lock(&m); n = n + 1; pthread_mutex_unlock(&m);
return 0; }
int main(void) {
pthread_t t;

pthread_create(&t, 0, w, 0);
pthread_mutex_lock(&m); n = n + 1; pthread_mutex_unlock(&m);
return 0; }
