int work(void, ...);
