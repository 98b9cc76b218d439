enum shade { dark };
struct shade *p;
