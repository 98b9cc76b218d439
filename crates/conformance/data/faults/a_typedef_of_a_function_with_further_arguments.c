typedef int sum(int, ...);
sum known, *pointer;
