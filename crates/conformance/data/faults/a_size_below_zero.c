int row[sizeof(int) == 8 ? 1 : -1];
