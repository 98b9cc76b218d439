static extern enum { dark = missing } s;
