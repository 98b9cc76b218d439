char c[2] = {'a', "b"};
