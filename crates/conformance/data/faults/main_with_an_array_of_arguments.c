int main(const int count, char *words[]) {
  return count && words[0] == 0;
}
