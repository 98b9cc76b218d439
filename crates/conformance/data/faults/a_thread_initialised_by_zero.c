pthread_t t = 0;
