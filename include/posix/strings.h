#ifndef LSRACE_POSIX_STRINGS_H
#define LSRACE_POSIX_STRINGS_H
#include <string.h>
#define bzero(to, size) ((void)memset(to, 0, size))
#define bcopy(from, to, size) ((void)memmove(to, from, size))
#endif
