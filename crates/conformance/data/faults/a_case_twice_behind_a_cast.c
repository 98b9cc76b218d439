int work(char c) {
  switch (c) {
  case -56:
    return 1;
  case (char)200:
    return 2;
  }
  return 0;
}
