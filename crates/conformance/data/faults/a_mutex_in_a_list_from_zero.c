struct queue { pthread_mutex_t lock; int n; } q = {0};
