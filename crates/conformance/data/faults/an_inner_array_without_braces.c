int rows[2][2] = {1, 2};
