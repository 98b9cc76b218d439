char (*rows)[2];
char (*rows)[3];
