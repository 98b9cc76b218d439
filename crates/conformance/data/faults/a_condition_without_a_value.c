void stop(void);
void work(void) {
  while (stop())
    ;
}
