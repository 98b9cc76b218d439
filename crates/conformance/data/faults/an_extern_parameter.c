void work(int a, extern int b);
