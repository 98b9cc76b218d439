char taken[(1 ? -1 : 0u) == 4294967295u && (1 ? -1 : 0u) > 0 && sizeof(1 ? -1 : 0u) == 4 ? 1 : -1];
char other[(0 ? 1u : -1L) == -1 && (0 ? 1u : -1L) < 0 && sizeof(0 ? 1u : -1L) == 8 ? 1 : -1];
char small[sizeof(1 ? (char)1 : (char)2) == 4 && (0L ? (char)1 : (short)-2) == -2 ? 1 : -1];
