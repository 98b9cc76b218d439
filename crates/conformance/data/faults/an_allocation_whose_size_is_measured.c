int n = sizeof malloc(3);
