struct point { int x, y; };
struct line { struct point from, to; };
struct line l = {{1, 2}, 3};
