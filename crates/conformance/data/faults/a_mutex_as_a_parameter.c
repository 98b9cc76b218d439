void lock_all(int n, pthread_mutex_t m);
