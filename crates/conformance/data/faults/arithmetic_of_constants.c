unsigned high = 1u << 31, wraps = 2147483647 + 1u, most = 0u - 1;
long wide = -2147483648, product = 65536 * 65536L;
int shifted = -1 >> 31, quotient = -7 / 2, rest = 5 % -3;
int all[(char)200 == -56 && (unsigned char)-1 == 255 && (_Bool)5 == 1 && '\x80' == -128 ? 1 : -1];
int also[(-1 < 0u) == 0 && -1L < 0u && (1 ? 2u : -1) > 0 && (short)65535 == -1 ? 1 : -1];
int one[5 > 3], none[~-2], seven[1 | 2 ^ 3 & 4], signs[-1 + 2u];
int main(void) {
  return sizeof one + sizeof none + sizeof seven - 20;
}
