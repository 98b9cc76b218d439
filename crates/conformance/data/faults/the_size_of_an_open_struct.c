struct node *first;
unsigned long n = sizeof *first;
