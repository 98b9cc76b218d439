enum kind { get, put } get(enum kind k) {
  return put;
}
