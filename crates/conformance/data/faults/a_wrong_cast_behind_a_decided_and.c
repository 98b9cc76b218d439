int row[1 + (0 && (int)"a")];
