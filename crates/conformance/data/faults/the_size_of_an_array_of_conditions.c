pthread_cond_t all[3];
int main(void) {
  return sizeof all;
}
