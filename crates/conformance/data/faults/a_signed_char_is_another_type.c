extern char byte;
extern char signed byte;
