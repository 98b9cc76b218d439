int (*way)(int, ...);
