struct pair { int a; } v, w;
int pick(int c) {
  return (c ? v : w).a;
}
