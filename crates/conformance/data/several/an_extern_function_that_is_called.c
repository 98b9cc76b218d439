void put(char *text, ...);
_Bool get(void);
int main(void) {
  put("x", 1, "y");
  return (get)();
}
