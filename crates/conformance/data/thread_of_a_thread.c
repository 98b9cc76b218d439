int n; pthread_t t; pthread_t u;
void *w(void *q) {
n = 1;
return 0; }
void *v(void *q) {
pthread_create(&u, 0, w, 0);
return 0; }
int main(void) {
pthread_create(&t, 0, v, 0);
n = 2;
return 0; }
