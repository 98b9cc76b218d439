pthread_t t = pthread_self();
