char cut[(char)300 == 300 && sizeof((char)300) == 1 ? 1 : -1];
