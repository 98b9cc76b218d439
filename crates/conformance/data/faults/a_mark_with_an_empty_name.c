# 5 ""
int n = missing;
