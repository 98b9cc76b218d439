struct queue { int n; pthread_mutex_t lock; };
struct queue q = {1, PTHREAD_COND_INITIALIZER};
