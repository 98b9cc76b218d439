enum { big = 2147483648 };
