int get(register static int a);
