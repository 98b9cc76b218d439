#ifndef LSRACE_POSIX_SIGNAL_H
#define LSRACE_POSIX_SIGNAL_H
#include <sys/types.h>
#include <time.h>
typedef int sig_atomic_t;
/* A set of signals changes no access, so it holds nothing: the mutex in it is no location. */
typedef struct { pthread_mutex_t nothing; } sigset_t;
#define SIGHUP 1
#define SIGINT 2
#define SIGQUIT 3
#define SIGILL 4
#define SIGTRAP 5
#define SIGABRT 6
#define SIGBUS 7
#define SIGFPE 8
#define SIGKILL 9
#define SIGUSR1 10
#define SIGSEGV 11
#define SIGUSR2 12
#define SIGPIPE 13
#define SIGALRM 14
#define SIGTERM 15
#define SIGCHLD 17
#define SIGCONT 18
#define SIGSTOP 19
#define SIGTSTP 20
#define SIGTTIN 21
#define SIGTTOU 22
#define SIG_BLOCK 0
#define SIG_UNBLOCK 1
#define SIG_SETMASK 2
int kill(pid_t process, int number);
int raise(int number);
int pthread_kill(pthread_t thread, int number);
int sigemptyset(sigset_t *set);
int sigfillset(sigset_t *set);
int sigaddset(sigset_t *set, int number);
int sigdelset(sigset_t *set, int number);
int sigismember(const sigset_t *set, int number);
int sigprocmask(int how, const sigset_t *set, sigset_t *old);
int pthread_sigmask(int how, const sigset_t *set, sigset_t *old);
int sigsuspend(const sigset_t *set);
/* A function as handler is refused, for it would count as never called. */
struct lsrace_handler;
#define SIG_DFL ((struct lsrace_handler *)0)
#define SIG_IGN ((struct lsrace_handler *)0)
int signal(int number, struct lsrace_handler *handler);
int sigwait(const sigset_t *set, int *to);
#pragma lsrace begin sigwait
int sigwait(const sigset_t *set, int *to) {
    *to = rand();
    return rand();
}
#pragma lsrace end
/* What `signal` may give, a number here. */
#define SIG_ERR (-1)
#endif
