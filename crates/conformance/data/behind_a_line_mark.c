int n;
# 7 "queue.h" 1
int m;
  double y;
# 3 "behind_a_line_mark.c" 2
int k;
