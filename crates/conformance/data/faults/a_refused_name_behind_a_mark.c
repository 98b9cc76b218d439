# 100 "/usr/include/lock.h" 1 3
static int try(pthread_mutex_t *m) {
	return pthread_mutex_trylock(m);
}
