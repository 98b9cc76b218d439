int *p = &5;
