#ifndef LSRACE_POSIX_UNISTD_H
#define LSRACE_POSIX_UNISTD_H
#include <stddef.h>
#include <sys/types.h>
#include <lsrace_bytes.h>
#define STDIN_FILENO 0
#define STDOUT_FILENO 1
#define STDERR_FILENO 2
#define F_OK 0
#define X_OK 1
#define W_OK 2
#define R_OK 4
#define SEEK_SET 0
#define SEEK_CUR 1
#define SEEK_END 2
#define _SC_ARG_MAX 0
#define _SC_CLK_TCK 2
#define _SC_OPEN_MAX 4
#define _SC_PAGESIZE 30
#define _SC_PAGE_SIZE 30
#define _SC_THREAD_THREADS_MAX 76
#define _SC_NPROCESSORS_CONF 83
#define _SC_NPROCESSORS_ONLN 84
#define _SC_PHYS_PAGES 85
int usleep(useconds_t microseconds);
unsigned alarm(unsigned seconds);
int pause(void);
pid_t getpid(void);
pid_t getppid(void);
uid_t getuid(void);
uid_t geteuid(void);
gid_t getgid(void);
gid_t getegid(void);
int getpagesize(void);
long sysconf(int name);
int isatty(int file);
int close(int file);
int dup(int file);
int dup2(int file, int other);
int fsync(int file);
int nice(int more);
off_t lseek(int file, off_t offset, int from);
#define _exit(status) exit(status)
int access(const char *path, int mode);
#pragma lsrace begin access
int access(const char *path, int mode) {
    return atoi(path);
}
#pragma lsrace end
int unlink(const char *path);
#pragma lsrace begin unlink
int unlink(const char *path) {
    return atoi(path);
}
#pragma lsrace end
/* optarg is part of an argument, which is read; the order of the arguments stays. */
extern char *optarg;
extern int optind, opterr, optopt;
#pragma lsrace begin optarg
char *optarg;
#pragma lsrace end
#pragma lsrace begin optind
int optind = 1;
#pragma lsrace end
#pragma lsrace begin opterr
int opterr = 1;
#pragma lsrace end
#pragma lsrace begin optopt
int optopt;
#pragma lsrace end
int getopt(int count, char *const *words, const char *options);
#pragma lsrace begin getopt
int getopt(int count, char *const *words, const char *options) {
    int at = rand();
    atoi(options);
    if (at < 1 || at >= count) return -1;
    atoi(words[at]);
    optarg = rand() ? words[at] + (unsigned)rand() : NULL;
    optind = rand();
    optopt = opterr ? rand() : 0;
    return rand();
}
#pragma lsrace end
ssize_t read(int file, void *to, size_t size);
#pragma lsrace begin read
ssize_t read(int file, void *to, size_t size) {
    size_t count = LSRACE_ANY;
    if (count > size) return -1;
    LSRACE_WRITE_BYTES(to)
    return (ssize_t)count;
}
#pragma lsrace end
ssize_t write(int file, const void *from, size_t size);
#pragma lsrace begin write
ssize_t write(int file, const void *from, size_t size) {
    LSRACE_READ_BYTES(from)
    return (ssize_t)LSRACE_ANY;
}
#pragma lsrace end
#define read(file, to, size) read(file, to, (size) + LSRACE_WHOLE(to))
#define write(file, from, size) write(file, from, (size) + LSRACE_WHOLE(from))
int pipe(int *ends);
#pragma lsrace begin pipe
int pipe(int *ends) {
    if (rand()) return -1;
    ends[0] = rand();
    ends[1] = rand();
    return 0;
}
#pragma lsrace end
#endif
