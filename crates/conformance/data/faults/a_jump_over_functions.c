void longjmp(void *, int);
void work(void *place) {
  if (place)
    longjmp(place, 1);
}
