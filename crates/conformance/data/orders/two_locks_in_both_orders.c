pthread_mutex_t a, b;
void *w(void *q) {
pthread_mutex_lock(&a); pthread_mutex_lock(&b); pthread_mutex_unlock(&b); pthread_mutex_unlock(&a);
return 0; }
int main(void) {
pthread_t t;

pthread_create(&t, 0, w, 0);
pthread_mutex_lock(&b); pthread_mutex_lock(&a); pthread_mutex_unlock(&a); pthread_mutex_unlock(&b);
return 0; }
