int first;
# 12 "queue.h" 1
int second;
  long first;
