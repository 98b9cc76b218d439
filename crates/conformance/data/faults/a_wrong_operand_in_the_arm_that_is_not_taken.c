int n = 1 ? 2 : "a" * 2;
