struct pair { int a; };
void work(int (*way)(int, struct pair));
