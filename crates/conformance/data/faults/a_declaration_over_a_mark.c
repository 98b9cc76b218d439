int a;
 unsigned
# 2 "types.h"
char short b;
