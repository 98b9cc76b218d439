void work(int (*way)(typedef int n));
