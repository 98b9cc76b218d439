# 3 "queue.h"
int *later = 5;
# 2 "queue.h"
int n = missing;
# 2 "queue.h"
int f = n->n;
# 1 "queue.h"
int right = 1;
