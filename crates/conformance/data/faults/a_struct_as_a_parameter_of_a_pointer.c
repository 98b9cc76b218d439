struct pair;
int (*way)(struct pair);
