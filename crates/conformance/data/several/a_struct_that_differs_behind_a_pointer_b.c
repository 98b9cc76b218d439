struct s { struct t *p; };
struct t { char n; };
extern struct s x;
