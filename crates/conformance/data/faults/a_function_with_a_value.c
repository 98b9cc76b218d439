int work(void) = 0;
