typedef long far;
typedef char row[3];
typedef pthread_mutex_t lock;
far n;
extern long n;
lock m = PTHREAD_MUTEX_INITIALIZER;
extern pthread_mutex_t m;
char named[sizeof(far) == 4 ? 1 : -1];
