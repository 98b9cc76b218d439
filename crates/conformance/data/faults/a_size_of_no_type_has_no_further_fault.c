int list[missing];
