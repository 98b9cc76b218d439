int (*find(void))[3];
int (*find(void))[2];
