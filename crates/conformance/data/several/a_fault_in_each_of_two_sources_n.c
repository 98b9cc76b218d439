int n = missing;
