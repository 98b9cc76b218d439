unsigned n = 1u << 32;
