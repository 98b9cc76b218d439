long unsigned static int const n = 3;
int inline typedef count;
short signed int s;
long int long typedef far;
int main(void) {
  register count c = n;
  far f = s;
  volatile auto int k = 0;
  ;
  int;
  return c - 3 + f + k;
}
