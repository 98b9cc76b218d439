# 1 "second.h" 1
# 1 "first.h" 1
int a = missing;
# 2 "second.h" 2
int *b = 5;
