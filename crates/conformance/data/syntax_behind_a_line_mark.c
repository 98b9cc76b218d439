int n;
# 7 "other.c"
int m = ;
int main(void) { return 0; }
