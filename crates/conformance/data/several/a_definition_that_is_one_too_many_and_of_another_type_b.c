char n;
