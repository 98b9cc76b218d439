typedef long far;
typedef char row[3];
typedef pthread_mutex_t lock;
far n;
extern long n;
lock m = PTHREAD_MUTEX_INITIALIZER;
extern pthread_mutex_t m;
char named[sizeof(far) == 8 && (far)-1 < 0 && sizeof(row) == 3 && sizeof(lock *) == 8 ? 1 : -1];
char object[sizeof n == 8 ? 1 : -1];
