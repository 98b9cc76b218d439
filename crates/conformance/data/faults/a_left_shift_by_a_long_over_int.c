static int n = 1 << 31L;
