int (*work(void))(int, ...);
