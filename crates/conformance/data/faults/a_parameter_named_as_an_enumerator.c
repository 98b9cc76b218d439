void work(enum { low, high } way, int low);
