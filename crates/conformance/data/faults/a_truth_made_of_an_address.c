int n;
_Bool known = 1 && &n;
