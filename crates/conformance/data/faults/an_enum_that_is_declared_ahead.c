enum shade;
enum shade { dark };
