# 1 "places/accesses_in_the_order_of_their_places.c"
# 1 "count.h" 1
int n;
static void *w(void *q) { n = 1; return 0; }
# 2 "places/accesses_in_the_order_of_their_places.c" 2
int main(void) {
pthread_t t;
pthread_create(&t, 0, w, 0);
n = 2;
return 0; }
