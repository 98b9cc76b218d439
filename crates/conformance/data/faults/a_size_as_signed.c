char wide[sizeof(long) == 8 && sizeof(long) - 9 < 0 ? 1 : -1];
