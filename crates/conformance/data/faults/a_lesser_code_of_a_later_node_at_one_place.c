void work(void) {
# 3 "queue.h"
  int *later = 5;
# 2 "queue.h"
  struct open v;
# 2 "queue.h"
  int count = missing;
# 1 "queue.h"
  int right = 1;
}
