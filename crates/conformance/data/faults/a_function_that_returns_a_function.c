int work(void)(int);
