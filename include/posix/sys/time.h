#ifndef LSRACE_POSIX_SYS_TIME_H
#define LSRACE_POSIX_SYS_TIME_H
#include <sys/types.h>
struct timeval {
    time_t tv_sec;
    suseconds_t tv_usec;
};
struct timezone {
    int tz_minuteswest;
    int tz_dsttime;
};
int gettimeofday(struct timeval *to, struct timezone *zone);
#pragma lsrace begin gettimeofday
int gettimeofday(struct timeval *to, struct timezone *zone) {
    to->tv_sec = (time_t)LSRACE_ANY;
    to->tv_usec = (suseconds_t)LSRACE_ANY;
    if (zone) {
        zone->tz_minuteswest = rand();
        zone->tz_dsttime = rand();
    }
    return rand();
}
#pragma lsrace end
#endif
