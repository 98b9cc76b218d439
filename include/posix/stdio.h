#ifndef LSRACE_POSIX_STDIO_H
#define LSRACE_POSIX_STDIO_H
#include <stddef.h>
#include <sys/types.h>
#include <lsrace_bytes.h>
#define EOF (-1)
#define BUFSIZ 8192
#define FILENAME_MAX 4096
#define _IOFBF 0
#define _IOLBF 1
#define _IONBF 2
#ifndef SEEK_SET
#define SEEK_SET 0
#define SEEK_CUR 1
#define SEEK_END 2
#endif
/* What is in a file, and where a stream stands in it, are no locations: the mutex in a stream is none. */
typedef struct { pthread_mutex_t nothing; } FILE;
extern FILE lsrace_stdin;
#pragma lsrace begin lsrace_stdin
FILE lsrace_stdin;
#pragma lsrace end
extern FILE lsrace_stdout;
#pragma lsrace begin lsrace_stdout
FILE lsrace_stdout;
#pragma lsrace end
extern FILE lsrace_stderr;
#pragma lsrace begin lsrace_stderr
FILE lsrace_stderr;
#pragma lsrace end
#define stdin (&lsrace_stdin)
#define stdout (&lsrace_stdout)
#define stderr (&lsrace_stderr)

/* On any stream, a call reads what the same call on the standard streams reads. */
#define fprintf(stream, ...) (printf(__VA_ARGS__) + ((void)(stream), 0))
#define fputs(text, stream) (puts(text) + ((void)(stream), 0))
#define fputc(character, stream) (putchar(character) + ((void)(stream), 0))
#define putc(character, stream) (putchar(character) + ((void)(stream), 0))
#define fgetc(stream) (getchar() + ((void)(stream), 0))
#define getc(stream) (getchar() + ((void)(stream), 0))
#define dprintf(file, ...) (printf(__VA_ARGS__) + ((void)(file), 0))
#define fopen(path, mode) (atoi(path), atoi(mode), (FILE *)malloc(sizeof(FILE)))
#define fdopen(file, mode) ((void)(file), atoi(mode), (FILE *)malloc(sizeof(FILE)))
#define popen(command, mode) (atoi(command), atoi(mode), (FILE *)malloc(sizeof(FILE)))
#define tmpfile() ((FILE *)malloc(sizeof(FILE)))
int remove(const char *path);
#pragma lsrace begin remove
int remove(const char *path) {
    return atoi(path);
}
#pragma lsrace end
int rename(const char *from, const char *to);
#pragma lsrace begin rename
int rename(const char *from, const char *to) {
    atoi(from);
    return atoi(to);
}
#pragma lsrace end
int fflush(FILE *stream);
int fclose(FILE *stream);
int pclose(FILE *stream);
int feof(FILE *stream);
int ferror(FILE *stream);
int fileno(FILE *stream);
int ungetc(int character, FILE *stream);
int fseek(FILE *stream, long offset, int from);
long ftell(FILE *stream);
void clearerr(FILE *stream);
void rewind(FILE *stream);
void flockfile(FILE *stream);
int ftrylockfile(FILE *stream);
void funlockfile(FILE *stream);
/* A buffer of the program's own is refused, for later calls would use it. */
typedef struct lsrace_buffer *(*lsrace_no_buffer)(void); /* null, but no `void *` */
void setbuf(FILE *stream, lsrace_no_buffer buffer);
int setvbuf(FILE *stream, lsrace_no_buffer buffer, int mode, size_t size);

char *fgets(char *to, int size, FILE *stream);
#pragma lsrace begin fgets
char *fgets(char *to, int size, FILE *stream) {
    int at = 0;
    if (size <= 0 || rand()) return NULL;
    while (at < size - 1 && rand()) to[at++] = (char)rand();
    to[at] = '\0';
    return to;
}
#pragma lsrace end
/* What is printed into an array is any text. */
int sprintf(char *to, int length);
#pragma lsrace begin sprintf
int sprintf(char *to, int length) {
    size_t at = 0;
    while (rand()) to[at++] = (char)rand();
    to[at] = '\0';
    return length;
}
#pragma lsrace end
int snprintf(char *to, size_t size, int length);
#pragma lsrace begin snprintf
int snprintf(char *to, size_t size, int length) {
    size_t at = 0;
    if (size == 0) return length;
    while (at < size - 1 && rand()) to[at++] = (char)rand();
    to[at] = '\0';
    return length;
}
#pragma lsrace end
#define sprintf(to, ...) sprintf(to, printf(__VA_ARGS__))
#define snprintf(to, size, ...) snprintf(to, size, printf(__VA_ARGS__))
size_t fread(void *to, size_t size, size_t count, FILE *stream);
#pragma lsrace begin fread
size_t fread(void *to, size_t size, size_t count, FILE *stream) {
    size_t done = LSRACE_ANY;
    if (done > count) return 0;
    LSRACE_WRITE_BYTES(to)
    return done;
}
#pragma lsrace end
size_t fwrite(const void *from, size_t size, size_t count, FILE *stream);
#pragma lsrace begin fwrite
size_t fwrite(const void *from, size_t size, size_t count, FILE *stream) {
    LSRACE_READ_BYTES(from)
    return LSRACE_ANY;
}
#pragma lsrace end
#define fread(to, size, count, stream) fread(to, (size) + LSRACE_WHOLE(to), count, stream)
#define fwrite(from, size, count, stream) fwrite(from, (size) + LSRACE_WHOLE(from), count, stream)
#endif
