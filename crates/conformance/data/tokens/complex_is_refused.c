int a;
 _Complex b;