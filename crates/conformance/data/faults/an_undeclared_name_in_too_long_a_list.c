int row[1] = {1, missing};
