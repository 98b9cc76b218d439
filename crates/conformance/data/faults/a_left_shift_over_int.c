int n = 1 << 31;
