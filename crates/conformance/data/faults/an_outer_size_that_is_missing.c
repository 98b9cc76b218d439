int rows[2][];
