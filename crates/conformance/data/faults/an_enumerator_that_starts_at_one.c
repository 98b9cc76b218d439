enum number { seven = 7, eight, least = -2147483648, behind, low = -1, zero, also = zero };
enum { first, second, greatest = 2147483647 };
char of_first[first == 1 && second == 2 && greatest == 2147483647 ? 1 : -1];
