enum number { seven = 7, eight, least = -2147483648, behind, low = -1, zero, also = zero };
enum { first, second, greatest = 2147483647 };
char of_seven[seven == 7 && eight == 8 && sizeof seven == 4 && seven - 8 < 0 ? 1 : -1];
char of_least[least == -2147483647 - 1 && behind == -2147483647 ? 1 : -1];
char of_zero[zero == 0 && low == -1 && also == 0 ? 1 : -1];
char of_first[first == 0 && second == 1 && greatest == 2147483647 ? 1 : -1];
char of_kind[sizeof(enum number) == 4 ? 1 : -1];
