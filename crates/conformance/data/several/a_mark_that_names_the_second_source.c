# 1 "early.h" 1
int *a = 5;
# 1 "several/a_mark_that_names_the_second_source_n.c" 1
int b = missing;
# 1 "late.h" 1
int c = missing;
