int n;
# 7 "node.h" 1
struct node head, *p;
# 3 "an_object_of_an_open_struct_at_the_end_of_a_marked_file.c" 2
int main(void) { return n; }
