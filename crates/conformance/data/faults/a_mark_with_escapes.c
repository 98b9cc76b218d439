#line 3 "a \\ \"b\".h" 3 4
void work(void) { break; }
