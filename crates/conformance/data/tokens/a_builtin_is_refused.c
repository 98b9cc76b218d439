int a;
 __builtin_abs b;