int work(unsigned n) {
  switch (n) {
  case -1:
    return 1;
  case 2:
  case 4294967295:
    return 2;
  }
  return 3;
}
