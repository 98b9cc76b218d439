char quotient[7 / 0 ? 1 : 1];
