int a;
  #