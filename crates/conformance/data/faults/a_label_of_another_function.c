void first(void) {
end:
  ;
}
void second(void) {
  goto end;
}
