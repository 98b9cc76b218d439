void work(void nothing);
