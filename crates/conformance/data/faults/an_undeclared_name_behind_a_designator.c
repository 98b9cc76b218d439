int row[2] = {[0] = missing};
