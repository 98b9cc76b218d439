# 0 "bank.c"
# 1 "