int main(int, char **);
int (*first)(int, char **) = &main;
