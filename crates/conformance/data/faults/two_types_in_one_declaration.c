int n;
unsigned char short s;
