int first(int rows[3][]);
