char word[] = "abc", braced[] = {"abc"}, held[4] = "a", most[][524288] = {{0}, {0}};
int list[] = {1, 2, 3}, rows[][3] = {{1}}, part[3] = {1};
char text[sizeof word == 4 && sizeof braced == 4 ? 1 : -1];
char lists[sizeof list == 12 && sizeof rows == 12 ? 1 : -1];
char stays[sizeof held == 4 && sizeof part == 12 ? 1 : -1];
char greatest[sizeof most == 1048576 ? 1 : -1];
