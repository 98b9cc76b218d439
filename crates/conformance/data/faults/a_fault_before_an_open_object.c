int *p = &missing;
struct node head;
