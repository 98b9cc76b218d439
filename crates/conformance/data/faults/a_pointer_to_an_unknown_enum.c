void work(int a, enum shade *s);
