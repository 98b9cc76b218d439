pthread_mutexattr_t *known;
pthread_mutexattr_t unknown;
