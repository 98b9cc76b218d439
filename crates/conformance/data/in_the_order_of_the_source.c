int v0;
int v1;
int v2;
int v3;
int v4;
int v5;
int v6;
int v7;
int v8;
int v9;
int v10;
int v11;
pthread_t t;
void *w(void *q) {
v0 = 1;
v1 = 1;
v2 = 1;
v3 = 1;
v4 = 1;
v5 = 1;
v6 = 1;
v7 = 1;
v8 = 1;
v9 = 1;
v10 = 1;
v11 = 1;
return 0; }
int main(void) {
pthread_create(&t, 0, w, 0);
v0 = 2;
v1 = 2;
v2 = 2;
v3 = 2;
v4 = 2;
v5 = 2;
v6 = 2;
v7 = 2;
v8 = 2;
v9 = 2;
v10 = 2;
v11 = 2;
return 0; }
