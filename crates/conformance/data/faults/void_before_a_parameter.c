void work(void, int n);
