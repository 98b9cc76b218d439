int n; pthread_mutex_t m; pthread_t t;
void lock(void) {
pthread_mutex_lock(&m); }
void set(void) {
n = 1; }
void *w(void *q) {
lock();
set();
n = 2;
return 0; }
int main(void) {
pthread_create(&t, 0, w, 0);
lock();
set();
return 0; }
