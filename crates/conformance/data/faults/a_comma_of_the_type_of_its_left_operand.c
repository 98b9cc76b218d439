char list[3];
char right[sizeof(1L, 2) == 8 ? 1 : -1];
