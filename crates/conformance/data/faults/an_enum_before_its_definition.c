enum shade s;
enum shade { dark };
