#ifndef LSRACE_STDIO_H
#define LSRACE_STDIO_H
#define NULL ((void *)0)
#define EOF (-1)
#endif
