/* Jumps are refused: this is here so that they are told, and not this header. */
#ifndef LSRACE_POSIX_SETJMP_H
#define LSRACE_POSIX_SETJMP_H
typedef long jmp_buf[25];
typedef long sigjmp_buf[25];
#endif
