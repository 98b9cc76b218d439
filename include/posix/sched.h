#ifndef LSRACE_POSIX_SCHED_H
#define LSRACE_POSIX_SCHED_H
#include <sys/types.h>
struct sched_param {
    int sched_priority;
};
#define SCHED_OTHER 0
#define SCHED_FIFO 1
#define SCHED_RR 2
int sched_yield(void);
int sched_get_priority_max(int policy);
int sched_get_priority_min(int policy);
#endif
