int n; pthread_t t;
void *w(void *q) {
n = 1;
return 0; }
int main(void) {
pthread_create(&t, 0, w, 0);
while (1) { }
n = 2;
return 0; }
