void work(int n, int *p) {
# 4 "twice.h"
  n = p;
# 4 "twice.h"
  1 = n;
}
