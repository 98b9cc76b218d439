int main(void) {
  int sem_count = 0;
  return sem_count;
}
