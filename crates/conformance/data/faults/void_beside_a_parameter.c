void work(int n, void);
