typedef int count;
typedef int count;
