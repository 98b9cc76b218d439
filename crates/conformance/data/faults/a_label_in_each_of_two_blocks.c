void work(void) {
  {
  here:
    ;
  }
  {
  here:
    ;
  }
}
