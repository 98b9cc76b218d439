char negative[-(short)5 == -5 && sizeof(-(short)5) == 4 && -(short)5 < 0 ? 1 : -1];
char wraps[-1u == 4294967295u && -1u > 0 && sizeof(-1u) == 4 ? 1 : -1];
char same[+(char)-3 == -3 && sizeof(+(char)3) == 4 && sizeof(+3L) == 8 ? 1 : -1];
char turned[~(unsigned char)0 == -1 && ~0u == 4294967295u && sizeof(~0L) == 8 ? 1 : -1];
char none[!0L == 1 && !7 == 0 && !7 - 1 < 0 && sizeof(!0L) == 4 ? 1 : -1];
