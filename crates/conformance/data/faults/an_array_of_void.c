void work(void all[3]);
