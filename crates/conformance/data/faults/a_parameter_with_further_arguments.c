void work(int n, int sum(int, ...));
