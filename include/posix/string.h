#ifndef LSRACE_POSIX_STRING_H
#define LSRACE_POSIX_STRING_H
#include <stddef.h>
#include <lsrace_bytes.h>

/* Strings that are only read are scanned where the call stands, and what is found out about them is any number. */
#define strlen(text) ((size_t)atoi(text))
#define strcmp(one, other) (atoi(one) + ((void)atoi(other), 0))
#define strcoll(one, other) strcmp(one, other)
#define strcasecmp(one, other) strcmp(one, other)
#define strspn(text, accepted) ((size_t)strcmp(text, accepted))
#define strcspn(text, refused) ((size_t)strcmp(text, refused))
#define strerror(number) ((void)(number), "error")
#define strsignal(number) ((void)(number), "signal")

int strncmp(const char *one, const char *other, size_t size);
#pragma lsrace begin strncmp
int strncmp(const char *one, const char *other, size_t size) {
    for (size_t at = 0; at < size; at++) {
        if (one[at] != other[at]) return (unsigned char)one[at] - (unsigned char)other[at];
        if (one[at] == '\0') return 0;
    }
    return 0;
}
#pragma lsrace end
int strncasecmp(const char *one, const char *other, size_t size);
#pragma lsrace begin strncasecmp
int strncasecmp(const char *one, const char *other, size_t size) {
    for (size_t at = 0; at < size; at++) {
        if (one[at] == '\0' || other[at] == '\0' || rand()) break;
    }
    return rand();
}
#pragma lsrace end
size_t strnlen(const char *text, size_t size);
#pragma lsrace begin strnlen
size_t strnlen(const char *text, size_t size) {
    size_t at = 0;
    while (at < size && text[at] != '\0') at++;
    return at;
}
#pragma lsrace end
char *strcpy(char *to, const char *from);
#pragma lsrace begin strcpy
char *strcpy(char *to, const char *from) {
    size_t at = 0;
    while ((to[at] = from[at]) != '\0') at++;
    return to;
}
#pragma lsrace end
char *stpcpy(char *to, const char *from);
#pragma lsrace begin stpcpy
char *stpcpy(char *to, const char *from) {
    while ((*to = *from) != '\0') {
        to++;
        from++;
    }
    return to;
}
#pragma lsrace end
char *strncpy(char *to, const char *from, size_t size);
#pragma lsrace begin strncpy
char *strncpy(char *to, const char *from, size_t size) {
    size_t at = 0;
    while (at < size && from[at] != '\0') {
        to[at] = from[at];
        at++;
    }
    while (at < size) to[at++] = '\0';
    return to;
}
#pragma lsrace end
char *strcat(char *to, const char *from);
#pragma lsrace begin strcat
char *strcat(char *to, const char *from) {
    size_t end = 0, at = 0;
    while (to[end] != '\0') end++;
    while ((to[end + at] = from[at]) != '\0') at++;
    return to;
}
#pragma lsrace end
char *strncat(char *to, const char *from, size_t size);
#pragma lsrace begin strncat
char *strncat(char *to, const char *from, size_t size) {
    size_t end = 0, at = 0;
    while (to[end] != '\0') end++;
    while (at < size && from[at] != '\0') {
        to[end + at] = from[at];
        at++;
    }
    to[end + at] = '\0';
    return to;
}
#pragma lsrace end
char *strchr(const char *text, int character);
#pragma lsrace begin strchr
char *strchr(const char *text, int character) {
    while (*text != (char)character) {
        if (*text == '\0') return NULL;
        text++;
    }
    return (char *)text;
}
#pragma lsrace end
char *strrchr(const char *text, int character);
#pragma lsrace begin strrchr
char *strrchr(const char *text, int character) {
    char *found = NULL;
    for (;; text++) {
        if (*text == (char)character) found = (char *)text;
        if (*text == '\0') return found;
    }
}
#pragma lsrace end
char *strpbrk(const char *text, const char *accepted);
#pragma lsrace begin strpbrk
char *strpbrk(const char *text, const char *accepted) {
    for (; *text != '\0'; text++)
        for (size_t at = 0; accepted[at] != '\0'; at++)
            if (*text == accepted[at]) return (char *)text;
    return NULL;
}
#pragma lsrace end
char *strstr(const char *text, const char *part);
#pragma lsrace begin strstr
char *strstr(const char *text, const char *part) {
    for (;; text++) {
        size_t at = 0;
        while (part[at] != '\0' && text[at] == part[at]) at++;
        if (part[at] == '\0') return (char *)text;
        if (*text == '\0') return NULL;
    }
}
#pragma lsrace end
char *strtok_r(char *text, const char *separators, char **next);
#pragma lsrace begin strtok_r
char *strtok_r(char *text, const char *separators, char **next) {
    char *token = NULL;
    if (text == NULL) text = *next;
    for (; *text != '\0'; text++) {
        size_t at = 0;
        while (separators[at] != '\0' && separators[at] != *text) at++;
        if (separators[at] == '\0') {
            if (token == NULL) token = text;
        } else if (token != NULL) {
            *text++ = '\0';
            break;
        }
    }
    *next = text;
    return token;
}
#pragma lsrace end
/* The copy is allocated where the call stands; of all sizes, one is the right one. */
char *strdup(char *to, const char *from);
#pragma lsrace begin strdup
char *strdup(char *to, const char *from) {
    size_t at = 0;
    if (to == NULL) return NULL;
    while ((to[at] = from[at]) != '\0') at++;
    return to;
}
#define strdup(text) strdup(malloc((size_t)rand()), text)
#pragma lsrace end
char *strndup(char *to, const char *from, size_t size);
#pragma lsrace begin strndup
char *strndup(char *to, const char *from, size_t size) {
    size_t at = 0;
    if (to == NULL) return NULL;
    while (at < size && from[at] != '\0') {
        to[at] = from[at];
        at++;
    }
    to[at] = '\0';
    return to;
}
#define strndup(text, size) strndup(malloc((size_t)rand()), text, size)
#pragma lsrace end

/* These work on arrays of characters and of whole numbers (lsrace_bytes.h). */
#pragma lsrace begin memset
static void *memset(void *to, int byte, size_t size) {
    LSRACE_WRITE_BYTES(to)
    return to;
}
#pragma lsrace end
#pragma lsrace begin memcpy
static void *memcpy(void *to, const void *from, size_t size) {
    LSRACE_READ_BYTES(from)
    LSRACE_WRITE_BYTES(to)
    return to;
}
#pragma lsrace end
#pragma lsrace begin memmove
static void *memmove(void *to, const void *from, size_t size) {
    LSRACE_READ_BYTES(from)
    LSRACE_WRITE_BYTES(to)
    return to;
}
#pragma lsrace end
int memcmp(const void *one, const void *other, size_t size);
#pragma lsrace begin memcmp
int memcmp(const void *one, const void *other, size_t size) {
    LSRACE_READ_BYTES(one)
    LSRACE_READ_BYTES(other)
    return rand();
}
#pragma lsrace end
#define memset(to, byte, size) memset(to, byte, (size) + LSRACE_WHOLE(to))
#define memcpy(to, from, size) memcpy(to, from, (size) + LSRACE_WHOLE(to) + LSRACE_WHOLE(from))
#define memmove(to, from, size) memmove(to, from, (size) + LSRACE_WHOLE(to) + LSRACE_WHOLE(from))
#define memcmp(one, other, size) memcmp(one, other, (size) + LSRACE_WHOLE(one) + LSRACE_WHOLE(other))
#endif
