int n;
int k = *&n;
