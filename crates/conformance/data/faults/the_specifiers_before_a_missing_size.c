int int row[missing];
