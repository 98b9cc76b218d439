int atomic_count, my_atomic_count;
int atomic_get(int *p) {
  return *p;
}
int main(void) {
  return atomic_get(&my_atomic_count);
}
