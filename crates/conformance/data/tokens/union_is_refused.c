int a;
 union b;