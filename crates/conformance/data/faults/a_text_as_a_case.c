void work(int n) {
  switch (n)
  case "a":
    ;
}
