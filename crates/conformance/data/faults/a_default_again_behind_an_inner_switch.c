void work(int n) {
  switch (n) {
  default:
    switch (n) {
    default:
      ;
    }
    {
    default:
      ;
    }
  }
}
