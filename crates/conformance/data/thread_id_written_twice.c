pthread_t t;
void *w(void *q) {
return 0; }
void *v(void *q) {
pthread_create(&t, 0, w, 0);
return 0; }
int main(void) {
pthread_create(&t, 0, v, 0);
return 0; }
