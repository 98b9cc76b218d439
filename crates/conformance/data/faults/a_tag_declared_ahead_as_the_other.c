struct shade;
enum shade { dark };
