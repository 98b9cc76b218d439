char negative[-(short)5 == -5 && sizeof(-(short)5) == 2 && -(short)5 < 0 ? 1 : -1];
