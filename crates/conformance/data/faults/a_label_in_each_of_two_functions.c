static int first(int n) {
  if (n)
    goto end;
  n = 1;
end:
  return n;
}
static int second(int n) {
  goto end;
  {
    int end;
  end:
    end = n;
    return end;
  }
}
int main(void) {
  return first(1) - second(1);
}
