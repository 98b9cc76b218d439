int row["abc"];
