void work(void) {
here:
there:
here:
  ;
}
