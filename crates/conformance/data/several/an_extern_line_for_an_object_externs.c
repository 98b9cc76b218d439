n
main
int
puts
