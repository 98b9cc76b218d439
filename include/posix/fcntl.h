#ifndef LSRACE_POSIX_FCNTL_H
#define LSRACE_POSIX_FCNTL_H
#include <sys/types.h>
#define O_RDONLY 0
#define O_WRONLY 1
#define O_RDWR 2
#define O_CREAT 64
#define O_EXCL 128
#define O_NOCTTY 256
#define O_TRUNC 512
#define O_APPEND 1024
#define O_NONBLOCK 2048
#define O_CLOEXEC 524288
#define F_GETFD 1
#define F_SETFD 2
#define F_GETFL 3
#define F_SETFL 4
#define FD_CLOEXEC 1
#define open(path, ...) (atoi(path) + ((void)(__VA_ARGS__), 0))
int fcntl(int file, int command, ...);
#endif
