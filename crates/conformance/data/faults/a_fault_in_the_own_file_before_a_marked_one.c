int a = 1;
# 1 "early.h" 1
int *b = 5;
# 2 "faults/a_fault_in_the_own_file_before_a_marked_one.c" 2
int c = missing;
