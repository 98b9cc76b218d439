#ifndef LSRACE_POSIX_STDDEF_H
#define LSRACE_POSIX_STDDEF_H
#define NULL ((void *)0)
typedef long ptrdiff_t;
typedef int wchar_t;
#endif
