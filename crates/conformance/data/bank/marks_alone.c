# 0 "bank.c"
# 1 "bank.c"
# 1 "queue.h" 1
