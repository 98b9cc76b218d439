int n = pthread_barrier_wait;
