int n; int k; pthread_t t;
void *w(void *q) {
k = n;
return 0; }
int main(void) {
pthread_create(&t, 0, w, 0);
if (n == 0) { }
return 0; }
