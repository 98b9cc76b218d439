struct pair { int low; enum { low, high } way; int row[high + 1]; } p;
typedef struct list list;
struct list { list *next; } l;
typedef int count;
struct count { count count; } c;
int main(void) {
  return p.low + low + p.row[high] + c.count + (l.next != 0);
}
