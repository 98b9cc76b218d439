# 0 "bank.c"
# 1 "bank.c"
# 1 "queue.h" 1
typedef struct job { int to; long amount; struct job *next; } job;
typedef struct { pthread_mutex_t lock; pthread_cond_t more; job *head; int closed; } queue;
# 2 "bank.c" 2
static pthread_mutex_t book = PTHREAD_MUTEX_INITIALIZER;
static long balance[8];
static queue q;
static int done;
static int errors;

static int put(queue *w, int to, long amount) {
  int rc = -