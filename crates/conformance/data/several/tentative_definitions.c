extern int e;
int n;
int k;
int n = 1;
int k;
int e;
static int s;
static int s = 2;

int main(void) {
  return n + k + e + s;
}
