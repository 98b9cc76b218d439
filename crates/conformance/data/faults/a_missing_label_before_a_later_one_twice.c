void work(void) {
  goto done;
end:
end:
  ;
}
