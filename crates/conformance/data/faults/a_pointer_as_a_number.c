char c;
int n = &c;
