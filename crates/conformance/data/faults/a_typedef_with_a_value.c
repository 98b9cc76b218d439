typedef int count = 5;
