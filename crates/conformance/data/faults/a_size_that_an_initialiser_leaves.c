char word[] = "abc", braced[] = {"abc"}, held[4] = "a", most[][524288] = {{0}, {0}};
int list[] = {1, 2, 3}, rows[][3] = {{1}}, part[3] = {1};
char stays[sizeof held == 2 ? 1 : -1];
