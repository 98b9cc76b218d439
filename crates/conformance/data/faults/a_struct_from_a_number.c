struct pair { int a; };
struct pair p = 5;
