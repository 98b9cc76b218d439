int a;
 double b;