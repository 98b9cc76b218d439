extern int rows[][];
