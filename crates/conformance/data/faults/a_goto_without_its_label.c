void work(int n) {
  if (n)
    goto done;
  n = 1;
}
