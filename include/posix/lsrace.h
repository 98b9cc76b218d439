/* What compilers add to C, and lsrace leaves out. lsrace-cc includes this in front of each source. */
/* An attribute that calls a function unseen, or by which a name is another function's, is left, and so refused. */
#define __attribute__(attributes) LSRACE_ATTRIBUTES attributes
#define LSRACE_ATTRIBUTES(...) LSRACE_EACH(__VA_ARGS__, , , , , , , , )
#define LSRACE_EACH(a, b, c, d, e, f, g, h, ...) \
    LSRACE_ONE(a) LSRACE_ONE(b) LSRACE_ONE(c) LSRACE_ONE(d) LSRACE_ONE(e) LSRACE_ONE(f) LSRACE_ONE(g) LSRACE_ONE(h) \
    LSRACE_NO_MORE(__VA_ARGS__)
#define LSRACE_ONE(attribute) LSRACE_SECOND(LSRACE_IS_##attribute, , )
#define LSRACE_SECOND(...) LSRACE_TAKE_SECOND(__VA_ARGS__)
#define LSRACE_TAKE_SECOND(first, second, ...) second
#define LSRACE_NO_MORE(ninth, ...) LSRACE_MORE_THAN_EIGHT_##ninth
#define LSRACE_MORE_THAN_EIGHT_
#define LSRACE_IS_alias , __attribute__
#define LSRACE_IS___alias__ , __attribute__
#define LSRACE_IS_cleanup , __attribute__
#define LSRACE_IS___cleanup__ , __attribute__
#define LSRACE_IS_constructor , __attribute__
#define LSRACE_IS___constructor__ , __attribute__
#define LSRACE_IS_destructor , __attribute__
#define LSRACE_IS___destructor__ , __attribute__
#define LSRACE_IS_ifunc , __attribute__
#define LSRACE_IS___ifunc__ , __attribute__
#define LSRACE_IS_section , __attribute__
#define LSRACE_IS___section__ , __attribute__
#define LSRACE_IS_weakref , __attribute__
#define LSRACE_IS___weakref__ , __attribute__
#define __extension__
#define __restrict restrict
#define __restrict__ restrict
#define __inline inline
#define __inline__ inline
#define __const const
#define __signed__ signed
#define __volatile__ volatile
#define _Noreturn
#define _Static_assert(...)
#define __builtin_expect(value, guess) (value)
#define __func__ "function"
#define __FUNCTION__ "function"

/* Any number: what a model gives in the place of a result that it doesn't compute. */
#define LSRACE_ANY ((unsigned long)rand() << 32 ^ (unsigned long)rand())
