int sum(int a, int a);
