/* An assertion that fails ends the process. As in C, each inclusion asks anew whether NDEBUG is defined. */
#undef assert
#ifdef NDEBUG
#define assert(condition) ((void)0)
#else
#define assert(condition) ((condition) ? (void)0 : abort())
#endif
#ifndef static_assert
#define static_assert(...)
#endif
