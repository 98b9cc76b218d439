int get(void nothing);
