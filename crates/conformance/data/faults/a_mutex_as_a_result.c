typedef pthread_mutex_t lock;
lock make(void);
