int n; pthread_mutex_t m; pthread_t t;
void f(void) {
n = n + 1; }
void *w(void *q) {
pthread_mutex_lock(&m);
f();
pthread_mutex_unlock(&m);
return 0; }
int main(void) {
pthread_create(&t, 0, w, 0);
f();
return 0; }
