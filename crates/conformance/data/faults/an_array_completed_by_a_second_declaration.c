extern int row[];
int row[3];
int main(void) {
  return sizeof row / sizeof(int) - 3;
}
