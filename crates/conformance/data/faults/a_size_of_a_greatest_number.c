int row[sizeof(int) - 5];
