typedef int pthread_t;
