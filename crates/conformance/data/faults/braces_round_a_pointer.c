char *text = {"abc"};
