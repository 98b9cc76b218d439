/* Own functions with `...` are refused: this is here so that they are told, and not this header. */
#ifndef LSRACE_POSIX_STDARG_H
#define LSRACE_POSIX_STDARG_H
typedef char *va_list;
#endif
