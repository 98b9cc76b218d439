char *work(_Bool b) {
  return b;
}
