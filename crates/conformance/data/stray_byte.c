int n;
  int @;
