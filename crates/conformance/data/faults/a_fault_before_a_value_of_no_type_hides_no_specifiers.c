# 9 "queue.h"
int char m;
# 2 "queue.h"
static extern int n = m;
