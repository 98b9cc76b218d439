struct pair { int a, b; };
struct pair p = {1, .b = 2};
