struct x { struct x *next; char of[3]; struct x **all; };
struct x;
char told[sizeof((struct x *)0)->next->of == 3 ? 1 : -1];
