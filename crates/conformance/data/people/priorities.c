# 3 "include/posix/sys/types.h"
typedef long ssize_t;
typedef long off_t;
typedef long time_t;
typedef long clock_t;
typedef long suseconds_t;
typedef long blkcnt_t;
typedef long blksize_t;
typedef int pid_t;
typedef int clockid_t;
typedef unsigned int id_t;
typedef unsigned int uid_t;
typedef unsigned int gid_t;
typedef unsigned int mode_t;
typedef unsigned int useconds_t;
typedef unsigned long dev_t;
typedef unsigned long ino_t;
typedef unsigned long nlink_t;
# 4 "include/posix/sched.h"
struct sched_param {
    int sched_priority;
};



int sched_yield(void);
int sched_get_priority_max(int policy);
int sched_get_priority_min(int policy);
# 4 "include/posix/stddef.h"
typedef long ptrdiff_t;
typedef int wchar_t;
# 5 "include/posix/time.h"
struct timespec {
    time_t tv_sec;
    long tv_nsec;
};
struct tm {
    int tm_sec;
    int tm_min;
    int tm_hour;
    int tm_mday;
    int tm_mon;
    int tm_year;
    int tm_wday;
    int tm_yday;
    int tm_isdst;
};
# 26
clock_t clock(void);
time_t time(time_t *to);
# 35
int clock_gettime(clockid_t clock, struct timespec *to);
# 44
int clock_getres(clockid_t clock, struct timespec *to);
# 55
int nanosleep(const struct timespec *how_long, struct timespec *left);
# 67
int clock_nanosleep(clockid_t clock, int flags, const struct timespec *until, struct timespec *left);
# 10 "include/posix/pthread.h"
typedef struct { pthread_mutex_t nothing; } lsrace_attributes;
# 31
int pthread_attr_init(lsrace_attributes
# 31
                                     *attributes);
int pthread_attr_destroy(lsrace_attributes
# 32
                                        *attributes);
int pthread_attr_setdetachstate(lsrace_attributes
# 33
                                               *attributes, int state);
int pthread_attr_setguardsize(lsrace_attributes
# 34
                                             *attributes, size_t size);
int pthread_attr_setinheritsched(lsrace_attributes
# 35
                                                *attributes, int inherit);
int pthread_attr_setschedpolicy(lsrace_attributes
# 36
                                               *attributes, int policy);
int pthread_attr_setscope(lsrace_attributes
# 37
                                         *attributes, int scope);
int pthread_attr_setstacksize(lsrace_attributes
# 38
                                             *attributes, size_t size);
int pthread_mutexattr_init(lsrace_attributes   *attributes);
int pthread_mutexattr_destroy(lsrace_attributes   *attributes);
int pthread_mutexattr_setprotocol(lsrace_attributes   *attributes, int protocol);
int pthread_mutexattr_setpshared(lsrace_attributes   *attributes, int shared);
int pthread_mutexattr_settype(lsrace_attributes   *attributes, int type);
int pthread_condattr_init(lsrace_attributes  *attributes);
int pthread_condattr_destroy(lsrace_attributes  *attributes);
int pthread_condattr_setclock(lsrace_attributes  *attributes, clockid_t clock);
int pthread_condattr_setpshared(lsrace_attributes  *attributes, int shared);

int pthread_attr_setschedparam(lsrace_attributes
# 49
                                              *attributes, const struct sched_param *parameters);
# 56
int pthread_attr_getdetachstate(const lsrace_attributes
# 56
                                                     *attributes, int *to);
# 63
int pthread_attr_getstacksize(const lsrace_attributes
# 63
                                                   *attributes, size_t *to);
# 72
int pthread_setconcurrency(int level);
int pthread_yield(void);
# 78
void pthread_testcancel(void);
int pthread_setcancelstate(int state, int *old);
# 86
int pthread_setcanceltype(int type, int *old);
# 120
typedef pthread_mutex_t pthread_spinlock_t;
# 128
typedef struct { pthread_mutex_t lock; } pthread_once_t;
# 140
typedef struct { pthread_mutex_t nothing; } pthread_barrier_t;
# 145
int lsrace_barrier_init  (
# 145
                         pthread_barrier_t *barrier, const lsrace_attributes     *attributes, unsigned count);
int lsrace_barrier_destroy  (
# 146
                            pthread_barrier_t *barrier);
int lsrace_barrier_wait  (
# 147
                         pthread_barrier_t *barrier);


typedef struct { pthread_mutex_t nothing; } pthread_rwlock_t;
typedef unsigned int pthread_key_t;
# 18 "include/posix/stdio.h"
typedef struct { pthread_mutex_t nothing; } FILE;
extern FILE lsrace_stdin;



extern FILE lsrace_stdout;



extern FILE lsrace_stderr;

FILE lsrace_stderr;
# 47
int remove(const char *path);
# 53
int rename(const char *from, const char *to);
# 60
int fflush(FILE *stream);
int fclose(FILE *stream);
int pclose(FILE *stream);
int feof(FILE *stream);
int ferror(FILE *stream);
int fileno(FILE *stream);
int ungetc(int character, FILE *stream);
int fseek(FILE *stream, long offset, int from);
long ftell(FILE *stream);
void clearerr(FILE *stream);
void rewind(FILE *stream);
void flockfile(FILE *stream);
int ftrylockfile(FILE *stream);
void funlockfile(FILE *stream);

typedef struct lsrace_buffer *(*lsrace_no_buffer)(void);
void setbuf(FILE *stream, lsrace_no_buffer buffer);
int setvbuf(FILE *stream, lsrace_no_buffer buffer, int mode, size_t size);

char *fgets(char *to, int size, FILE *stream);
# 90
int sprintf(char *to, int length);
# 99
int snprintf(char *to, size_t size, int length);
# 111
size_t fread(void *to, size_t size, size_t count, FILE *stream);
# 120
size_t fwrite(const void *from, size_t size, size_t count, FILE *stream);
# 7 "include/posix/stdlib.h"
void srand(unsigned seed);
long random(void);
void srandom(unsigned seed);
int abs(int number);
long labs(long number);
long long llabs(long long number);
# 17
int system(const char *command);
# 23
char *getenv(const char *name);
# 29
long strtol(const char *text, char **end, int base);
# 38
unsigned long strtoul(const char *text, char **end, int base);
# 47
long long strtoll(const char *text, char **end, int base);
# 56
unsigned long long strtoull(const char *text, char **end, int base);
# 16 "include/posix/string.h"
int strncmp(const char *one, const char *other, size_t size);
# 26
int strncasecmp(const char *one, const char *other, size_t size);
# 35
size_t strnlen(const char *text, size_t size);
# 43
char *strcpy(char *to, const char *from);
# 51
char *stpcpy(char *to, const char *from);
# 61
char *strncpy(char *to, const char *from, size_t size);
# 73
char *strcat(char *to, const char *from);
# 82
char *strncat(char *to, const char *from, size_t size);
# 95
char *strchr(const char *text, int character);
# 105
char *strrchr(const char *text, int character);
# 115
char *strpbrk(const char *text, const char *accepted);
# 124
char *strstr(const char *text, const char *part);
# 135
char *strtok_r(char *text, const char *separators, char **next);
# 155
char *strdup(char *to, const char *from);
# 165
char *strndup(char *to, const char *from, size_t size);
# 201
int memcmp(const void *one, const void *other, size_t size);
# 12 "examples/people/priorities.c"
static pthread_mutex_t mutex;
static int stack[16];
static size_t depth;

static void fail(const char *what, int error)
{
    (printf         (
# 18
                    "%s: %s\n", what, ((void)  (
# 18
                                               error)
# 18
                                      , "error"
# 18
                                      )) + ((void
# 18
                                      )((&lsrace_stderr
# 18
                                      )), 0));
    exit(1);
}

static void mutex_setup(void)
{
    lsrace_attributes   attr;
    int rc;

    if ((rc = pthread_mutexattr_init(&attr)) != 0)
        fail("pthread_mutexattr_init", rc);
    if ((rc = pthread_mutexattr_setprotocol(&attr, 1                   )) != 0)
        fail("pthread_mutexattr_setprotocol", rc);
    if ((rc = pthread_mutex_init((
# 31
                                 &mutex) + ((void)
# 31
                                         (
# 31
                                         &attr), 0), 0)
# 31
                                               ) != 0)
        fail("pthread_mutex_init", rc);
    pthread_mutexattr_destroy(&attr);
}

static void enter(void)
{
    int rc = pthread_mutex_lock(&mutex);

    if (rc != 0)
        fail("pthread_mutex_lock", rc);
}

static void leave(void)
{
    int rc = pthread_mutex_unlock(&mutex);

    if (rc != 0)
        fail("pthread_mutex_unlock", rc);
}

static int push(int value)
{
    int done = 0;

    enter();
    if (depth < 16) {
        stack[depth++] = value;
        done = 1;
    }
    leave();
    return done;
}

static int pop(int *value)
{
    int done = 0;

    enter();
    if (depth > 0) {
        *value = stack[--depth];
        done = 1;
    }
    leave();
    return done;
}

static void *pusher(void *arg)
{
    for (int i = 0; i < 100; i++)
        if (!push(i))
            break;
    return arg;
}

static void *popper(void *arg)
{
    int value, sum = 0;

    while (pop(&value))
        sum += value;
    printf("%d\n", sum);
    return arg;
}

int main(void)
{
    pthread_t a, b;
    int rc;

    mutex_setup();
    if ((rc = pthread_create((
# 102
                             &a  ) + ((void
# 102
                                 )(((void *
# 102
                                 )0)), 0),
# 102
                                 0   , pusher, ((void *)
# 102
                                               0)  )) != 0)
        fail("pthread_create", rc);
    if ((rc = pthread_create((
# 104
                             &b  ) + ((void
# 104
                                 )(((void *
# 104
                                 )0)), 0),
# 104
                                 0   , popper, ((void *)
# 104
                                               0)  )) != 0)
        fail("pthread_create", rc);
    pthread_join(a, ((void *)
# 106
                    0));
    pthread_join(b, ((void *)
# 107
                    0));
    pthread_mutex_destroy(&mutex);
    return 0;
}
