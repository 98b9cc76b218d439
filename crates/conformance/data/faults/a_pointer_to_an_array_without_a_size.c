int (*rows)[];
