auto int outer;
extern int outer;
int outer;
static int own;
static int own;
extern int own;
static int get(void);
int get(void);
typedef long far;
extern char late[];
int main(void) {
  static long outer = 1;
  char inner[sizeof outer == 8 ? 1 : -1];
  int found(void);
  extern int own;
  {
    extern int outer;
    char again[sizeof outer == 4 ? 1 : -1];
    long get = 2;
    {
      extern char late[3];
      int far(int), found(void);
      char last[sizeof late == 3 && sizeof get == 8 ? 1 : -1];
    }
  }
  return own + get() + found();
}
static int own = 1;
static int get(void) {
  return 0;
}
int found(void) {
  return 0;
}
