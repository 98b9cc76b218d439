# 3 "include/posix/sys/types.h"
typedef long ssize_t;
typedef long off_t;
typedef long time_t;
typedef long clock_t;
typedef long suseconds_t;
typedef long blkcnt_t;
typedef long blksize_t;
typedef int pid_t;
typedef int clockid_t;
typedef unsigned int id_t;
typedef unsigned int uid_t;
typedef unsigned int gid_t;
typedef unsigned int mode_t;
typedef unsigned int useconds_t;
typedef unsigned long dev_t;
typedef unsigned long ino_t;
typedef unsigned long nlink_t;
# 4 "include/posix/sched.h"
struct sched_param {
    int sched_priority;
};



int sched_yield(void);
int sched_get_priority_max(int policy);
int sched_get_priority_min(int policy);
# 4 "include/posix/stddef.h"
typedef long ptrdiff_t;
typedef int wchar_t;
# 5 "include/posix/time.h"
struct timespec {
    time_t tv_sec;
    long tv_nsec;
};
struct tm {
    int tm_sec;
    int tm_min;
    int tm_hour;
    int tm_mday;
    int tm_mon;
    int tm_year;
    int tm_wday;
    int tm_yday;
    int tm_isdst;
};
# 26
clock_t clock(void);
time_t time(time_t *to);
# 35
int clock_gettime(clockid_t clock, struct timespec *to);
# 44
int clock_getres(clockid_t clock, struct timespec *to);
# 55
int nanosleep(const struct timespec *how_long, struct timespec *left);
# 67
int clock_nanosleep(clockid_t clock, int flags, const struct timespec *until, struct timespec *left);
# 10 "include/posix/pthread.h"
typedef struct { pthread_mutex_t nothing; } lsrace_attributes;
# 31
int pthread_attr_init(lsrace_attributes
# 31
                                     *attributes);
int pthread_attr_destroy(lsrace_attributes
# 32
                                        *attributes);
int pthread_attr_setdetachstate(lsrace_attributes
# 33
                                               *attributes, int state);
int pthread_attr_setguardsize(lsrace_attributes
# 34
                                             *attributes, size_t size);
int pthread_attr_setinheritsched(lsrace_attributes
# 35
                                                *attributes, int inherit);
int pthread_attr_setschedpolicy(lsrace_attributes
# 36
                                               *attributes, int policy);
int pthread_attr_setscope(lsrace_attributes
# 37
                                         *attributes, int scope);
int pthread_attr_setstacksize(lsrace_attributes
# 38
                                             *attributes, size_t size);
int pthread_mutexattr_init(lsrace_attributes   *attributes);
int pthread_mutexattr_destroy(lsrace_attributes   *attributes);
int pthread_mutexattr_setprotocol(lsrace_attributes   *attributes, int protocol);
int pthread_mutexattr_setpshared(lsrace_attributes   *attributes, int shared);
int pthread_mutexattr_settype(lsrace_attributes   *attributes, int type);
int pthread_condattr_init(lsrace_attributes  *attributes);
int pthread_condattr_destroy(lsrace_attributes  *attributes);
int pthread_condattr_setclock(lsrace_attributes  *attributes, clockid_t clock);
int pthread_condattr_setpshared(lsrace_attributes  *attributes, int shared);

int pthread_attr_setschedparam(lsrace_attributes
# 49
                                              *attributes, const struct sched_param *parameters);
# 56
int pthread_attr_getdetachstate(const lsrace_attributes
# 56
                                                     *attributes, int *to);
# 63
int pthread_attr_getstacksize(const lsrace_attributes
# 63
                                                   *attributes, size_t *to);
# 72
int pthread_setconcurrency(int level);
int pthread_yield(void);
# 78
void pthread_testcancel(void);
int pthread_setcancelstate(int state, int *old);
# 86
int pthread_setcanceltype(int type, int *old);
# 97
static int pthread_mutex_trylock(pthread_mutex_t *mutex) {
    int failure = rand();
    return failure ? failure : pthread_mutex_lock(mutex);
}
# 120
typedef pthread_mutex_t pthread_spinlock_t;
# 128
typedef struct { pthread_mutex_t lock; } pthread_once_t;
# 140
typedef struct { pthread_mutex_t nothing; } pthread_barrier_t;
# 145
int lsrace_barrier_init  (
# 145
                         pthread_barrier_t *barrier, const lsrace_attributes     *attributes, unsigned count);
int lsrace_barrier_destroy  (
# 146
                            pthread_barrier_t *barrier);
int lsrace_barrier_wait  (
# 147
                         pthread_barrier_t *barrier);


typedef struct { pthread_mutex_t nothing; } pthread_rwlock_t;
typedef unsigned int pthread_key_t;
# 3 "include/posix/stdint.h"
typedef signed char int8_t;
typedef short int16_t;
typedef int int32_t;
typedef long int64_t;
typedef unsigned char uint8_t;
typedef unsigned short uint16_t;
typedef unsigned int uint32_t;
typedef unsigned long uint64_t;
typedef signed char int_least8_t;
typedef short int_least16_t;
typedef int int_least32_t;
typedef long int_least64_t;
typedef unsigned char uint_least8_t;
typedef unsigned short uint_least16_t;
typedef unsigned int uint_least32_t;
typedef unsigned long uint_least64_t;
typedef signed char int_fast8_t;
typedef long int_fast16_t;
typedef long int_fast32_t;
typedef long int_fast64_t;
typedef unsigned char uint_fast8_t;
typedef unsigned long uint_fast16_t;
typedef unsigned long uint_fast32_t;
typedef unsigned long uint_fast64_t;
typedef long intptr_t;
typedef unsigned long uintptr_t;
typedef long intmax_t;
typedef unsigned long uintmax_t;
# 18 "include/posix/stdio.h"
typedef struct { pthread_mutex_t nothing; } FILE;
extern FILE lsrace_stdin;



extern FILE lsrace_stdout;



extern FILE lsrace_stderr;

FILE lsrace_stderr;
# 47
int remove(const char *path);
# 53
int rename(const char *from, const char *to);
# 60
int fflush(FILE *stream);
int fclose(FILE *stream);
int pclose(FILE *stream);
int feof(FILE *stream);
int ferror(FILE *stream);
int fileno(FILE *stream);
int ungetc(int character, FILE *stream);
int fseek(FILE *stream, long offset, int from);
long ftell(FILE *stream);
void clearerr(FILE *stream);
void rewind(FILE *stream);
void flockfile(FILE *stream);
int ftrylockfile(FILE *stream);
void funlockfile(FILE *stream);

typedef struct lsrace_buffer *(*lsrace_no_buffer)(void);
void setbuf(FILE *stream, lsrace_no_buffer buffer);
int setvbuf(FILE *stream, lsrace_no_buffer buffer, int mode, size_t size);

char *fgets(char *to, int size, FILE *stream);
# 90
int sprintf(char *to, int length);
# 99
int snprintf(char *to, size_t size, int length);
# 111
size_t fread(void *to, size_t size, size_t count, FILE *stream);
# 120
size_t fwrite(const void *from, size_t size, size_t count, FILE *stream);
# 7 "include/posix/stdlib.h"
void srand(unsigned seed);
long random(void);
void srandom(unsigned seed);
int abs(int number);
long labs(long number);
long long llabs(long long number);
# 17
int system(const char *command);
# 23
char *getenv(const char *name);
# 29
long strtol(const char *text, char **end, int base);
# 38
unsigned long strtoul(const char *text, char **end, int base);
# 47
long long strtoll(const char *text, char **end, int base);
# 56
unsigned long long strtoull(const char *text, char **end, int base);
# 13 "examples/people/spin_counter.c"
static pthread_spinlock_t lock;
static uint64_t counter;
static uint32_t collisions;

static void *count(void *arg)
{
    const int *times = arg;

    for (int i = 0; i < *times; i++) {
        if (pthread_mutex_trylock(
# 22
                                 &lock) != 0) {
            pthread_mutex_lock(
# 23
                              &lock);
            collisions++;
        }
        counter++;
        pthread_mutex_unlock(
# 27
                            &lock);
    }
    return ((void *)
# 29
           0);
}

int main(int argc, char *argv[])
{
    pthread_t threads[16];
    int number = argc > 1 ? atoi(argv[1]) : 4;
    int times = argc > 2 ? atoi(argv[2]) : 100000;

    if (number < 1 || number > 16) {
        (printf         (
# 39
                        "usage: %s [THREADS [TIMES]]\n", argv[
# 39
        0]) + ((void
# 39
        )((&lsrace_stderr
# 39
        )),                                                   0
# 39
        ));
        return 2;
    }
    if (pthread_mutex_init
# 42
        (                 (
# 42
                          &lock  ) + ((void)(0), 0), 0  ) != 0)
        return 1;
    for (int i = 0; i < number; i++)
        if (pthread_create((
# 45
                           &threads[i]  ) + ((void
# 45
                                        )(((void *
# 45
                                        )0)), 0),
# 45
                                        0   , count, &times) != 0)
            return 1;
    for (int i = 0; i < number; i++)
        pthread_join(threads[i], ((void *)
# 48
                                 0));
    pthread_mutex_lock(
# 49
                      &lock);
    printf("%lu, %lu collisions\n", (unsigned long)counter, (unsigned long)collisions);
    pthread_mutex_unlock(
# 51
                        &lock);
    pthread_mutex_destroy(
# 52
                         &lock);
    return 0;
}
