int n;
float x;
