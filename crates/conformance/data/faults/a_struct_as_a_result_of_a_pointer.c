struct pair { int a; };
struct pair (*make)(void);
