int n;	pthread_mutex_t m;
int main(void) { n = 2147483647; return 0; }