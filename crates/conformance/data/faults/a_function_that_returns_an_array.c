typedef int row[3];
row work(void);
