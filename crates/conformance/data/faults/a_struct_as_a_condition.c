struct pair { int a; } p;
void work(void) {
  for (; p;)
    ;
}
