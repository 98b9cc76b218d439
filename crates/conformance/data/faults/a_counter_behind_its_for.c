int main(void) {
  for (int k = 0; k < 3; k++)
    ;
  return k;
}
