int work(int n) {
  switch (1) {
  case n:
    ;
  }
  return n;
}
