char name[2][8];
int i;
void *w(void *q) { name[0][0] = 'x'; i = 1; return 0; }
int main(void) {
pthread_t t;
pthread_create(&t, 0, w, 0);
printf("%s", name[i]);
return 0; }
