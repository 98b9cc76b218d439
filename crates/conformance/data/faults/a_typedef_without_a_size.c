typedef int row[];
row r = {1, 2};
