pthread_mutex_t m;
void *w(void *q) {
pthread_mutex_trylock(&m);
return 0; }
int main(void) {
pthread_t t;

pthread_create(&t, 0, w, 0);

return 0; }
