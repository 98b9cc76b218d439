struct point { int x, y; };
struct line { struct point from, to; char name[3]; };
static struct line l = {{1, 2}, {3}, "abc"}, all[] = {{{1, 2}, {3, 4}, {'x', 0}}, {{0}},};
int rows[2][2] = {{1}, {2, 3},};
char word[] = {"x"}, words[2][3] = {"abc", {"de"}};
unsigned char bytes[] = "ab" "cd";
char *names[2] = {"left"};
int main(void) {
  int n = 1, row[] = {n, n + 1};
  struct line local = {{n, row[1]}, {0}};
  char last[sizeof bytes == 5 && sizeof word == 2 ? 1 : -1] = {'z'};
  return local.from.x - rows[0][0] + l.to.y + all[1].from.x + last[0] - 'z';
}
