int row[4 / (2 - 2)];
