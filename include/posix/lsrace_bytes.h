/* Reading or writing the bytes of an object: any of its cells, any number of times, as one of the kinds of whole numbers. What
   is written is any number. */
#ifndef LSRACE_BYTES_H
#define LSRACE_BYTES_H
/* Zero where a pointer leads to whole numbers; what leads to anything else, `void` too, is refused, for it has no cells here.
   The operand of sizeof isn't evaluated. */
#define LSRACE_WHOLE(pointer) (0 * sizeof(~*(pointer)))
#define LSRACE_READ_AS(type, object) \
    if (rand()) { \
        const type *cells = object; \
        while (rand()) cells[(unsigned)rand()]; \
    } else
#define LSRACE_WRITE_AS(type, object, any) \
    if (rand()) { \
        type *cells = object; \
        while (rand()) cells[(unsigned)rand()] = (type)any; \
    } else
#define LSRACE_READ_BYTES(object) \
    LSRACE_READ_AS(char, object) LSRACE_READ_AS(signed char, object) LSRACE_READ_AS(unsigned char, object) \
    LSRACE_READ_AS(_Bool, object) LSRACE_READ_AS(short, object) LSRACE_READ_AS(unsigned short, object) \
    LSRACE_READ_AS(int, object) LSRACE_READ_AS(unsigned, object) LSRACE_READ_AS(long, object) \
    LSRACE_READ_AS(unsigned long, object) LSRACE_READ_AS(long long, object) LSRACE_READ_AS(unsigned long long, object) {}
#define LSRACE_WRITE_BYTES(object) \
    LSRACE_WRITE_AS(char, object, rand()) LSRACE_WRITE_AS(signed char, object, rand()) \
    LSRACE_WRITE_AS(unsigned char, object, rand()) LSRACE_WRITE_AS(_Bool, object, rand()) \
    LSRACE_WRITE_AS(short, object, rand()) LSRACE_WRITE_AS(unsigned short, object, rand()) \
    LSRACE_WRITE_AS(int, object, rand()) LSRACE_WRITE_AS(unsigned, object, rand()) \
    LSRACE_WRITE_AS(long, object, LSRACE_ANY) LSRACE_WRITE_AS(unsigned long, object, LSRACE_ANY) \
    LSRACE_WRITE_AS(long long, object, LSRACE_ANY) LSRACE_WRITE_AS(unsigned long long, object, LSRACE_ANY) {}
#endif
