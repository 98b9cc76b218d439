

int n = missing;
# 1 "faults/a_mark_that_goes_back.c"
int *p = &5;
