int n = sizeof(int []);
