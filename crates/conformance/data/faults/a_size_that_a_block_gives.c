extern int row[];
int main(void) {
  extern int row[3];
  {
    extern int row[];
    return sizeof row - 12 + row[0];
  }
}
int row[3];
