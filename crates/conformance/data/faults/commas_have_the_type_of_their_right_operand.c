char list[3];
char right[sizeof(1L, 2) == 4 && sizeof(1, 2L) == 8 && sizeof(1L, (char)2) == 1 ? 1 : -1];
char reads[sizeof(0, list) == 8 && sizeof list == 3 ? 1 : -1];
