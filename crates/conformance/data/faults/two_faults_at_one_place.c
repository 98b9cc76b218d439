void work(void) {
# 9 "twice.h"
  one;
# 9 "twice.h"
  two;
}
