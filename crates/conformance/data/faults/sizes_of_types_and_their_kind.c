char wide[sizeof(long) == 8 && sizeof(sizeof(long)) == 8 && sizeof(long) - 9 > 0 ? 1 : -1];
char kinds[sizeof(_Bool) == 1 && sizeof(char) == 1 && sizeof(short) == 2 && sizeof(int) == 4 && sizeof(long long) == 8 ? 1 : -1];
char pointers[sizeof(char *) == 8 && sizeof(int (*)[3]) == 8 && sizeof(void (*)(void)) == 8 && sizeof(char[3]) == 3 ? 1 : -1];
char predeclared[sizeof(size_t) == 8 && sizeof(pthread_t) == 8 && (size_t)0 - 1 > 0 ? 1 : -1];
char objects[sizeof 1 == 4 && sizeof(1u) == 4 && sizeof "ab" == 3 && sizeof("a" "bc") == 4 ? 1 : -1];
