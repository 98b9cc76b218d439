int a[4];
int main(void) {
  int i;
  for (i = 0; i < 2; i++)
    a[i] = 1;
  while (i)
    i = i - 1;
  do
    i++;
  while (i < 2);
  if (i == 3)
    return 1;
  else
    i = 0;
  goto done;
done:
  return a[i];
}
