#ifndef LSRACE_STDLIB_H
#define LSRACE_STDLIB_H
#define NULL ((void *)0)
#define EXIT_SUCCESS 0
#define EXIT_FAILURE 1
#endif
