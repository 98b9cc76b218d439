int n;
_Bool known = (_Bool)&n;
