int get(void);
int (*way)(void) = get;
