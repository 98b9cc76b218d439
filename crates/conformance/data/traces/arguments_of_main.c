int main(int argc, char **argv) {
  char *first = argv[1];
  puts(argv[0]);
  if (argv[argc])
    return 1;
  return first[1];
}
