#ifndef LSRACE_POSIX_STDLIB_H
#define LSRACE_POSIX_STDLIB_H
#include <stddef.h>
#define EXIT_SUCCESS 0
#define EXIT_FAILURE 1
#define RAND_MAX 2147483647
void srand(unsigned seed);
long random(void);
void srandom(unsigned seed);
int abs(int number);
long labs(long number);
long long llabs(long long number);
#define _Exit(status) exit(status)
#define rand_r(seed) (*(seed) += (unsigned)rand(), rand())
#define atol(text) ((long)(LSRACE_ANY + 0 * atoi(text)))
#define atoll(text) ((long long)(LSRACE_ANY + 0 * atoi(text)))
int system(const char *command);
#pragma lsrace begin system
int system(const char *command) {
    return command ? atoi(command) : rand();
}
#pragma lsrace end
char *getenv(const char *name);
#pragma lsrace begin getenv
char *getenv(const char *name) {
    return atoi(name) ? "text" : NULL;
}
#pragma lsrace end
long strtol(const char *text, char **end, int base);
#pragma lsrace begin strtol
long strtol(const char *text, char **end, int base) {
    long at = 0;
    while (text[at] && rand()) at++;
    if (end) *end = (char *)text + at;
    return (long)LSRACE_ANY;
}
#pragma lsrace end
unsigned long strtoul(const char *text, char **end, int base);
#pragma lsrace begin strtoul
unsigned long strtoul(const char *text, char **end, int base) {
    long at = 0;
    while (text[at] && rand()) at++;
    if (end) *end = (char *)text + at;
    return LSRACE_ANY;
}
#pragma lsrace end
long long strtoll(const char *text, char **end, int base);
#pragma lsrace begin strtoll
long long strtoll(const char *text, char **end, int base) {
    long at = 0;
    while (text[at] && rand()) at++;
    if (end) *end = (char *)text + at;
    return (long long)LSRACE_ANY;
}
#pragma lsrace end
unsigned long long strtoull(const char *text, char **end, int base);
#pragma lsrace begin strtoull
unsigned long long strtoull(const char *text, char **end, int base) {
    long at = 0;
    while (text[at] && rand()) at++;
    if (end) *end = (char *)text + at;
    return LSRACE_ANY;
}
#pragma lsrace end
#endif
