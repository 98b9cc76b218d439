int row[2] = {1, {2}};
