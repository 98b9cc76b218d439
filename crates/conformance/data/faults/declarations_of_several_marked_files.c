# 1 "declarations_of_several_marked_files.c"
# 1 "pair.h" 1
struct pair { int a; } first;
extern int n;
# 2 "declarations_of_several_marked_files.c" 2
int n = 1;
# 1 "pair.h"
int main(void) { return n - 1 + first.a; }
