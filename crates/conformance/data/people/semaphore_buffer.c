# 5 "include/posix/errno.h"
int lsrace_errno(void);
# 3 "include/posix/sys/types.h"
typedef long ssize_t;
typedef long off_t;
typedef long time_t;
typedef long clock_t;
typedef long suseconds_t;
typedef long blkcnt_t;
typedef long blksize_t;
typedef int pid_t;
typedef int clockid_t;
typedef unsigned int id_t;
typedef unsigned int uid_t;
typedef unsigned int gid_t;
typedef unsigned int mode_t;
typedef unsigned int useconds_t;
typedef unsigned long dev_t;
typedef unsigned long ino_t;
typedef unsigned long nlink_t;
# 4 "include/posix/sched.h"
struct sched_param {
    int sched_priority;
};



int sched_yield(void);
int sched_get_priority_max(int policy);
int sched_get_priority_min(int policy);
# 4 "include/posix/stddef.h"
typedef long ptrdiff_t;
typedef int wchar_t;
# 5 "include/posix/time.h"
struct timespec {
    time_t tv_sec;
    long tv_nsec;
};
struct tm {
    int tm_sec;
    int tm_min;
    int tm_hour;
    int tm_mday;
    int tm_mon;
    int tm_year;
    int tm_wday;
    int tm_yday;
    int tm_isdst;
};
# 26
clock_t clock(void);
time_t time(time_t *to);
# 35
int clock_gettime(clockid_t clock, struct timespec *to);
# 44
int clock_getres(clockid_t clock, struct timespec *to);
# 55
int nanosleep(const struct timespec *how_long, struct timespec *left);
# 67
int clock_nanosleep(clockid_t clock, int flags, const struct timespec *until, struct timespec *left);
# 10 "include/posix/pthread.h"
typedef struct { pthread_mutex_t nothing; } lsrace_attributes;
# 31
int pthread_attr_init(lsrace_attributes
# 31
                                     *attributes);
int pthread_attr_destroy(lsrace_attributes
# 32
                                        *attributes);
int pthread_attr_setdetachstate(lsrace_attributes
# 33
                                               *attributes, int state);
int pthread_attr_setguardsize(lsrace_attributes
# 34
                                             *attributes, size_t size);
int pthread_attr_setinheritsched(lsrace_attributes
# 35
                                                *attributes, int inherit);
int pthread_attr_setschedpolicy(lsrace_attributes
# 36
                                               *attributes, int policy);
int pthread_attr_setscope(lsrace_attributes
# 37
                                         *attributes, int scope);
int pthread_attr_setstacksize(lsrace_attributes
# 38
                                             *attributes, size_t size);
int pthread_mutexattr_init(lsrace_attributes   *attributes);
int pthread_mutexattr_destroy(lsrace_attributes   *attributes);
int pthread_mutexattr_setprotocol(lsrace_attributes   *attributes, int protocol);
int pthread_mutexattr_setpshared(lsrace_attributes   *attributes, int shared);
int pthread_mutexattr_settype(lsrace_attributes   *attributes, int type);
int pthread_condattr_init(lsrace_attributes  *attributes);
int pthread_condattr_destroy(lsrace_attributes  *attributes);
int pthread_condattr_setclock(lsrace_attributes  *attributes, clockid_t clock);
int pthread_condattr_setpshared(lsrace_attributes  *attributes, int shared);

int pthread_attr_setschedparam(lsrace_attributes
# 49
                                              *attributes, const struct sched_param *parameters);
# 56
int pthread_attr_getdetachstate(const lsrace_attributes
# 56
                                                     *attributes, int *to);
# 63
int pthread_attr_getstacksize(const lsrace_attributes
# 63
                                                   *attributes, size_t *to);
# 72
int pthread_setconcurrency(int level);
int pthread_yield(void);
# 78
void pthread_testcancel(void);
int pthread_setcancelstate(int state, int *old);
# 86
int pthread_setcanceltype(int type, int *old);
# 120
typedef pthread_mutex_t pthread_spinlock_t;
# 128
typedef struct { pthread_mutex_t lock; } pthread_once_t;
# 140
typedef struct { pthread_mutex_t nothing; } pthread_barrier_t;
# 145
int lsrace_barrier_init  (
# 145
                         pthread_barrier_t *barrier, const lsrace_attributes     *attributes, unsigned count);
int lsrace_barrier_destroy  (
# 146
                            pthread_barrier_t *barrier);
int lsrace_barrier_wait  (
# 147
                         pthread_barrier_t *barrier);


typedef struct { pthread_mutex_t nothing; } pthread_rwlock_t;
typedef unsigned int pthread_key_t;
# 6 "include/posix/semaphore.h"
typedef struct { pthread_mutex_t nothing; } sem_t;
# 13
int lsrace_sem_init
# 13
             (
# 13
             sem_t *semaphore, int shared, unsigned value);
int lsrace_sem_destroy
# 14
                (
# 14
                sem_t *semaphore);
int lsrace_sem_wait
# 15
             (
# 15
             sem_t *semaphore);
int lsrace_sem_trywait
# 16
                (
# 16
                sem_t *semaphore);
int lsrace_sem_post
# 17
             (
# 17
             sem_t *semaphore);
int lsrace_sem_close
# 18
              (
# 18
              sem_t *semaphore);
# 18 "include/posix/stdio.h"
typedef struct { pthread_mutex_t nothing; } FILE;
extern FILE lsrace_stdin;



extern FILE lsrace_stdout;



extern FILE lsrace_stderr;
# 47
int remove(const char *path);
# 53
int rename(const char *from, const char *to);
# 60
int fflush(FILE *stream);
int fclose(FILE *stream);
int pclose(FILE *stream);
int feof(FILE *stream);
int ferror(FILE *stream);
int fileno(FILE *stream);
int ungetc(int character, FILE *stream);
int fseek(FILE *stream, long offset, int from);
long ftell(FILE *stream);
void clearerr(FILE *stream);
void rewind(FILE *stream);
void flockfile(FILE *stream);
int ftrylockfile(FILE *stream);
void funlockfile(FILE *stream);

typedef struct lsrace_buffer *(*lsrace_no_buffer)(void);
void setbuf(FILE *stream, lsrace_no_buffer buffer);
int setvbuf(FILE *stream, lsrace_no_buffer buffer, int mode, size_t size);

char *fgets(char *to, int size, FILE *stream);
# 90
int sprintf(char *to, int length);
# 99
int snprintf(char *to, size_t size, int length);
# 111
size_t fread(void *to, size_t size, size_t count, FILE *stream);
# 120
size_t fwrite(const void *from, size_t size, size_t count, FILE *stream);
# 7 "include/posix/stdlib.h"
void srand(unsigned seed);
long random(void);
void srandom(unsigned seed);
int abs(int number);
long labs(long number);
long long llabs(long long number);
# 17
int system(const char *command);
# 23
char *getenv(const char *name);
# 29
long strtol(const char *text, char **end, int base);
# 38
unsigned long strtoul(const char *text, char **end, int base);
# 47
long long strtoll(const char *text, char **end, int base);
# 56
unsigned long long strtoull(const char *text, char **end, int base);
# 14 "examples/people/semaphore_buffer.c"
static int slot[4];
static int first, used;
static sem_t free_slots, full_slots;
static pthread_mutex_t slots_lock = PTHREAD_MUTEX_INITIALIZER;
static int last_taken;

static void wait_for(sem_t *semaphore)
{
    while (lsrace_sem_wait
# 22
                    (
# 22
                    semaphore) == -1) {
        if (lsrace_errno
# 23
            () != 4) {
            perror("sem_wait");
            exit(1);
        }
    }
}

static void *produce(void *arg)
{
    int base = *(int *)arg;

    for (int i = 0; i < 25  ; i++) {
        wait_for(&free_slots);
        pthread_mutex_lock(&slots_lock);
        (      (
# 37
               used < 4) ? (void
# 37
                      )0 : abort
# 37
                      ());
        slot[(first + used) % 4    ] = base + i;
        used++;
        pthread_mutex_unlock(&slots_lock);
        lsrace_sem_post
# 41
                 (
# 41
                 &full_slots);
    }
    return ((void *)
# 43
           0);
}

static void *consume(void *arg)
{
    (void)arg;
    for (int i = 0; i < 2 * 25  ; i++) {
        wait_for(&full_slots);
        pthread_mutex_lock(&slots_lock);
        last_taken = slot[first];
        first = (first + 1) % 4;
        used--;
        pthread_mutex_unlock(&slots_lock);
        lsrace_sem_post
# 56
                 (
# 56
                 &free_slots);
        printf("took %d\n", last_taken);
    }
    return ((void *)
# 59
           0);
}

int main(void)
{
    pthread_t p[2], c;
    int base[2] = { 100, 200 };

    if (lsrace_sem_init
# 67
                 (
# 67
                 &free_slots, 0, 4    ) == -1 || lsrace_sem_init
# 67
                                                          (
# 67
                                                          &full_slots, 0, 0) == -1) {
        perror("sem_init");
        return 1;
    }
    (      (
# 71
           pthread_create((
# 71
                          &p[0]  ) + ((void
# 71
                                 )(((void *
# 71
                                 )0)), 0),
# 71
                                 0   , produce, &base[0]) == 0)
# 71
                                 ? (void)0
# 71
                                 : abort()
# 71
                                 );
    (      (
# 72
           pthread_create((
# 72
                          &p[1]  ) + ((void
# 72
                                 )(((void *
# 72
                                 )0)), 0),
# 72
                                 0   , produce, &base[1]) == 0)
# 72
                                 ? (void)0
# 72
                                 : abort()
# 72
                                 );
    (      (
# 73
           pthread_create((
# 73
                          &c  ) + ((void
# 73
                              )(((void *
# 73
                              )0)), 0),
# 73
                              0   , consume, ((void *)
# 73
                                             0)) == 0)
# 73
                                             ? (void) 0
# 73
                                             : abort()
# 73
                                             );
    pthread_join(p[0], ((void *)
# 74
                       0));
    pthread_join(p[1], ((void *)
# 75
                       0));
    pthread_join(c, ((void *)
# 76
                    0));
    lsrace_sem_destroy
# 77
                (
# 77
                &free_slots);
    lsrace_sem_destroy
# 78
                (
# 78
                &full_slots);
    return 0;
}
