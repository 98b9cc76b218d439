int work(unsigned long n) {
  switch (n) {
  case -1:
    return 1;
  case 18446744073709551615u:
    return 2;
  }
  return 0;
}
