pthread_mutex_t m = {PTHREAD_MUTEX_INITIALIZER};
