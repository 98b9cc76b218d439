typedef void nothing;
nothing *p, n;
