int n = sizeof(int (void)[3]);
