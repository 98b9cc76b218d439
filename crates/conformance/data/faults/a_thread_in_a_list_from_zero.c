struct job { int n; pthread_t t; } j = {1, 0};
