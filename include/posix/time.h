#ifndef LSRACE_POSIX_TIME_H
#define LSRACE_POSIX_TIME_H
#include <stddef.h>
#include <sys/types.h>
struct timespec {
    time_t tv_sec;
    long tv_nsec;
};
struct tm {
    int tm_sec;
    int tm_min;
    int tm_hour;
    int tm_mday;
    int tm_mon;
    int tm_year;
    int tm_wday;
    int tm_yday;
    int tm_isdst;
};
#define CLOCKS_PER_SEC 1000000L
#define CLOCK_REALTIME 0
#define CLOCK_MONOTONIC 1
#define CLOCK_PROCESS_CPUTIME_ID 2
#define CLOCK_THREAD_CPUTIME_ID 3
#define TIMER_ABSTIME 1
clock_t clock(void);
time_t time(time_t *to);
#pragma lsrace begin time
time_t time(time_t *to) {
    time_t now = (time_t)LSRACE_ANY;
    if (to) *to = now;
    return now;
}
#pragma lsrace end
int clock_gettime(clockid_t clock, struct timespec *to);
#pragma lsrace begin clock_gettime
int clock_gettime(clockid_t clock, struct timespec *to) {
    if (rand()) return -1;
    to->tv_sec = (time_t)LSRACE_ANY;
    to->tv_nsec = (long)LSRACE_ANY;
    return 0;
}
#pragma lsrace end
int clock_getres(clockid_t clock, struct timespec *to);
#pragma lsrace begin clock_getres
int clock_getres(clockid_t clock, struct timespec *to) {
    if (rand()) return -1;
    if (to) {
        to->tv_sec = (time_t)LSRACE_ANY;
        to->tv_nsec = (long)LSRACE_ANY;
    }
    return 0;
}
#pragma lsrace end
int nanosleep(const struct timespec *how_long, struct timespec *left);
#pragma lsrace begin nanosleep
int nanosleep(const struct timespec *how_long, struct timespec *left) {
    how_long->tv_sec, how_long->tv_nsec;
    if (rand()) return 0;
    if (left) {
        left->tv_sec = (time_t)LSRACE_ANY;
        left->tv_nsec = (long)LSRACE_ANY;
    }
    return -1;
}
#pragma lsrace end
int clock_nanosleep(clockid_t clock, int flags, const struct timespec *until, struct timespec *left);
#pragma lsrace begin clock_nanosleep
int clock_nanosleep(clockid_t clock, int flags, const struct timespec *until, struct timespec *left) {
    until->tv_sec, until->tv_nsec;
    if (left && rand()) {
        left->tv_sec = (time_t)LSRACE_ANY;
        left->tv_nsec = (long)LSRACE_ANY;
    }
    return rand();
}
#pragma lsrace end
#endif
