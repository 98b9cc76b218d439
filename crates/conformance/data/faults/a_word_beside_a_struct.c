struct pair { int a; };
int struct pair *p;
