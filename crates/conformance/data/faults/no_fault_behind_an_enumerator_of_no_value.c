# 9 "queue.h"
enum { faulty = missing,
# 2 "queue.h"
  next };
