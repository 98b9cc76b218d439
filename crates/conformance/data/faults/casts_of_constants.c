char cut[(char)300 == 44 && sizeof((char)300) == 1 ? 1 : -1];
char below[(char)200 == -56 && (signed char)255 == -1 && (unsigned char)-1 == 255 ? 1 : -1];
char shorter[(short)65535 == -1 && (unsigned short)65537 == 1 && sizeof((short)1) == 2 ? 1 : -1];
char truth[(_Bool)300 == 1 && (_Bool)0L == 0 && sizeof((_Bool)1) == 1 ? 1 : -1];
char wider[(long)-1 == -1L && (unsigned long)-1 == 18446744073709551615u && sizeof((long)1) == 8 ? 1 : -1];
char whole[(int)4294967295u == -1 && (unsigned)-1 == 4294967295u && (int)4294967301 == 5 ? 1 : -1];
