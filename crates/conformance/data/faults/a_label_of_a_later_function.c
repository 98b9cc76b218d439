void first(int n) {
  if (n) {
    goto end;
  }
}
void second(void) {
end:
  ;
}
