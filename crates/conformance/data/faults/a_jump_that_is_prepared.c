int work(void *place) {
  return setjmp(place);
}
