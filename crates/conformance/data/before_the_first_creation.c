int n; pthread_t t;
void *w(void *q) {
n = 1;
return 0; }
int main(void) {
n = 2;
pthread_create(&t, 0, w, 0);
return 0; }
