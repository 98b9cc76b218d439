int a;
 asm b;