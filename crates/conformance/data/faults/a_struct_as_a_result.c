typedef struct { int a, b; } pair;
pair make(int a) {
  pair p = {a, a};
  return p;
}
