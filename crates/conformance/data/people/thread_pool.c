# 3 "include/posix/sys/types.h"
typedef long ssize_t;
typedef long off_t;
typedef long time_t;
typedef long clock_t;
typedef long suseconds_t;
typedef long blkcnt_t;
typedef long blksize_t;
typedef int pid_t;
typedef int clockid_t;
typedef unsigned int id_t;
typedef unsigned int uid_t;
typedef unsigned int gid_t;
typedef unsigned int mode_t;
typedef unsigned int useconds_t;
typedef unsigned long dev_t;
typedef unsigned long ino_t;
typedef unsigned long nlink_t;
# 4 "include/posix/sched.h"
struct sched_param {
    int sched_priority;
};



int sched_yield(void);
int sched_get_priority_max(int policy);
int sched_get_priority_min(int policy);
# 4 "include/posix/stddef.h"
typedef long ptrdiff_t;
typedef int wchar_t;
# 5 "include/posix/time.h"
struct timespec {
    time_t tv_sec;
    long tv_nsec;
};
struct tm {
    int tm_sec;
    int tm_min;
    int tm_hour;
    int tm_mday;
    int tm_mon;
    int tm_year;
    int tm_wday;
    int tm_yday;
    int tm_isdst;
};
# 26
clock_t clock(void);
time_t time(time_t *to);
# 35
int clock_gettime(clockid_t clock, struct timespec *to);
# 44
int clock_getres(clockid_t clock, struct timespec *to);
# 55
int nanosleep(const struct timespec *how_long, struct timespec *left);
# 67
int clock_nanosleep(clockid_t clock, int flags, const struct timespec *until, struct timespec *left);
# 10 "include/posix/pthread.h"
typedef struct { pthread_mutex_t nothing; } lsrace_attributes;
# 31
int pthread_attr_init(lsrace_attributes
# 31
                                     *attributes);
int pthread_attr_destroy(lsrace_attributes
# 32
                                        *attributes);
int pthread_attr_setdetachstate(lsrace_attributes
# 33
                                               *attributes, int state);
int pthread_attr_setguardsize(lsrace_attributes
# 34
                                             *attributes, size_t size);
int pthread_attr_setinheritsched(lsrace_attributes
# 35
                                                *attributes, int inherit);
int pthread_attr_setschedpolicy(lsrace_attributes
# 36
                                               *attributes, int policy);
int pthread_attr_setscope(lsrace_attributes
# 37
                                         *attributes, int scope);
int pthread_attr_setstacksize(lsrace_attributes
# 38
                                             *attributes, size_t size);
int pthread_mutexattr_init(lsrace_attributes   *attributes);
int pthread_mutexattr_destroy(lsrace_attributes   *attributes);
int pthread_mutexattr_setprotocol(lsrace_attributes   *attributes, int protocol);
int pthread_mutexattr_setpshared(lsrace_attributes   *attributes, int shared);
int pthread_mutexattr_settype(lsrace_attributes   *attributes, int type);
int pthread_condattr_init(lsrace_attributes  *attributes);
int pthread_condattr_destroy(lsrace_attributes  *attributes);
int pthread_condattr_setclock(lsrace_attributes  *attributes, clockid_t clock);
int pthread_condattr_setpshared(lsrace_attributes  *attributes, int shared);

int pthread_attr_setschedparam(lsrace_attributes
# 49
                                              *attributes, const struct sched_param *parameters);
# 56
int pthread_attr_getdetachstate(const lsrace_attributes
# 56
                                                     *attributes, int *to);
# 63
int pthread_attr_getstacksize(const lsrace_attributes
# 63
                                                   *attributes, size_t *to);
# 72
int pthread_setconcurrency(int level);
int pthread_yield(void);
# 78
void pthread_testcancel(void);
int pthread_setcancelstate(int state, int *old);
# 86
int pthread_setcanceltype(int type, int *old);
# 120
typedef pthread_mutex_t pthread_spinlock_t;
# 128
typedef struct { pthread_mutex_t lock; } pthread_once_t;
# 140
typedef struct { pthread_mutex_t nothing; } pthread_barrier_t;
# 145
int lsrace_barrier_init  (
# 145
                         pthread_barrier_t *barrier, const lsrace_attributes     *attributes, unsigned count);
int lsrace_barrier_destroy  (
# 146
                            pthread_barrier_t *barrier);
int lsrace_barrier_wait  (
# 147
                         pthread_barrier_t *barrier);


typedef struct { pthread_mutex_t nothing; } pthread_rwlock_t;
typedef unsigned int pthread_key_t;
# 18 "include/posix/stdio.h"
typedef struct { pthread_mutex_t nothing; } FILE;
extern FILE lsrace_stdin;



extern FILE lsrace_stdout;



extern FILE lsrace_stderr;

FILE lsrace_stderr;
# 47
int remove(const char *path);
# 53
int rename(const char *from, const char *to);
# 60
int fflush(FILE *stream);
int fclose(FILE *stream);
int pclose(FILE *stream);
int feof(FILE *stream);
int ferror(FILE *stream);
int fileno(FILE *stream);
int ungetc(int character, FILE *stream);
int fseek(FILE *stream, long offset, int from);
long ftell(FILE *stream);
void clearerr(FILE *stream);
void rewind(FILE *stream);
void flockfile(FILE *stream);
int ftrylockfile(FILE *stream);
void funlockfile(FILE *stream);

typedef struct lsrace_buffer *(*lsrace_no_buffer)(void);
void setbuf(FILE *stream, lsrace_no_buffer buffer);
int setvbuf(FILE *stream, lsrace_no_buffer buffer, int mode, size_t size);

char *fgets(char *to, int size, FILE *stream);
# 90
int sprintf(char *to, int length);
# 99
int snprintf(char *to, size_t size, int length);
# 111
size_t fread(void *to, size_t size, size_t count, FILE *stream);
# 120
size_t fwrite(const void *from, size_t size, size_t count, FILE *stream);
# 7 "include/posix/stdlib.h"
void srand(unsigned seed);
long random(void);
void srandom(unsigned seed);
int abs(int number);
long labs(long number);
long long llabs(long long number);
# 17
int system(const char *command);
# 23
char *getenv(const char *name);
# 29
long strtol(const char *text, char **end, int base);
# 38
unsigned long strtoul(const char *text, char **end, int base);
# 47
long long strtoll(const char *text, char **end, int base);
# 56
unsigned long long strtoull(const char *text, char **end, int base);
# 13 "examples/people/thread_pool.c"
typedef struct task {
    void (*run)(void *);
    void *argument;
    struct task *next;
} task_t;

typedef struct {
    pthread_mutex_t lock;
    pthread_cond_t not_empty;
    task_t *head;
    task_t *tail;
    int shutdown;
    pthread_t threads[4];
} thread_pool_t;

static pthread_mutex_t sum_lock = PTHREAD_MUTEX_INITIALIZER;
static long sum;

static void *worker(void *arg)
{
    thread_pool_t *pool = arg;

    for (;;) {
        task_t *task;

        pthread_mutex_lock(&pool->lock);
        while (pool->head == ((void *)
# 39
                             0)   && !pool->shutdown)
            pthread_cond_wait(&pool->not_empty, &pool->lock);
        if (pool->head == ((void *)
# 41
                          0)) {
            pthread_mutex_unlock(&pool->lock);
            return ((void *)
# 43
                   0);
        }
        task = pool->head;
        pool->head = task->next;
        if (pool->head == ((void *)
# 47
                          0))
            pool->tail = ((void *)
# 48
                         0);
        pthread_mutex_unlock(&pool->lock);

        task->run(task->argument);
        free(task);
    }
}

static int pool_init(thread_pool_t *pool)
{
    pthread_mutex_init((
# 58
                       &pool->lock  ) + ((void
# 58
                                    )(((void *
# 58
                                    )0)), 0),
# 58
                                    0);
    pthread_cond_init((
# 59
                      &pool->not_empty  ) + ((void
# 59
                                        )(((void *
# 59
                                        )0)), 0),
# 59
                                        0);
    pool->head = pool->tail = ((void *)
# 60
                              0);
    pool->shutdown = 0;
    for (int i = 0; i < 4      ; i++) {
        if (pthread_create((
# 63
                           &pool->threads[i]  ) + ((void
# 63
                                              )(((void *
# 63
                                              )0)), 0),
# 63
                                              0   , worker, pool) != 0)
            return -1;
    }
    return 0;
}

static int pool_submit(thread_pool_t *pool, void (*run)(void *), void *argument)
{
    task_t *task = malloc(sizeof *task);

    if (task == ((void *)
# 73
                0))
        return -1;
    task->run = run;
    task->argument = argument;
    task->next = ((void *)
# 77
                 0);
    pthread_mutex_lock(&pool->lock);
    if (pool->tail != ((void *)
# 79
                      0))
        pool->tail->next = task;
    else
        pool->head = task;
    pool->tail = task;
    pthread_cond_signal(&pool->not_empty);
    pthread_mutex_unlock(&pool->lock);
    return 0;
}

static void pool_shutdown(thread_pool_t *pool)
{
    pthread_mutex_lock(&pool->lock);
    pool->shutdown = 1;
    pthread_cond_broadcast(&pool->not_empty);
    pthread_mutex_unlock(&pool->lock);
    for (int i = 0; i < 4      ; i++)
        pthread_join(pool->threads[i], ((void *)
# 96
                                       0));
    pthread_cond_destroy(&pool->not_empty);
    pthread_mutex_destroy(&pool->lock);
}

static void add(void *arg)
{
    const int *number = arg;

    pthread_mutex_lock(&sum_lock);
    sum += *number;
    pthread_mutex_unlock(&sum_lock);
}

int main(void)
{
    static thread_pool_t pool;
    static int numbers[32];

    for (int i = 0; i < 32   ; i++)
        numbers[i] = i + 1;
    if (pool_init(&pool) != 0) {
        (printf         (
# 118
                        "cannot start the workers\n")
# 118
        + ((void)
# 118
        ((&lsrace_stderr
# 118
        )), 0));
        return 1;
    }
    for (int i = 0; i < 32   ; i++) {
        if (pool_submit(&pool, add, &numbers[i]) != 0) {
            perror("pool_submit");
            break;
        }
    }
    pool_shutdown(&pool);
    pthread_mutex_lock(&sum_lock);
    printf("the sum is %ld\n", sum);
    pthread_mutex_unlock(&sum_lock);
    return 0;
}
