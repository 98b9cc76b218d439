#ifndef LSRACE_STDDEF_H
#define LSRACE_STDDEF_H
#define NULL ((void *)0)
#endif
