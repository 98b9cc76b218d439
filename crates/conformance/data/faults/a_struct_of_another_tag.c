struct left { int n; } l;
struct right { int n; } *r = &l;
