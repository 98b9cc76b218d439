void work(int n) {
  switch (n)
  case (void *)0:
    ;
}
