typedef int sum(int, ...);
void work(sum way);
