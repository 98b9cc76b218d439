#ifndef LSRACE_POSIX_ERR_H
#define LSRACE_POSIX_ERR_H
#define err(status, ...) (printf(__VA_ARGS__), exit(status))
#define errx(status, ...) (printf(__VA_ARGS__), exit(status))
#define warn(...) ((void)printf(__VA_ARGS__))
#define warnx(...) ((void)printf(__VA_ARGS__))
#endif
