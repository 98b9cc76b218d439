int n = 1;
# 40
int k = {1};
