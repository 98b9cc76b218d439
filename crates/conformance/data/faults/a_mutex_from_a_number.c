pthread_mutex_t m = 0;
