extern int n;
int n = 1;
int often;
int often;
static int kept = 1;
static int kept;
static int late;
static int late = 2;
extern int whole = 1;
int whole;
extern int whole;
int get(void), get(void);
int get(void) {
  return 1;
}
int main(void) {
  return n + often + kept + late + whole + get() - 6;
}
