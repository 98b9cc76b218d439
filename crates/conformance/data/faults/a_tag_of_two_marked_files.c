# 1 "left.h" 1
struct pair { int a; };
# 1 "right.h" 1
	struct pair { int a; };
# 1 "a_tag_of_two_marked_files.c" 2
int main(void) { return 0; }
