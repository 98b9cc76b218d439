extern int rows[][3];
extern int rows[][2];
