enum shade { dark };
int n = sizeof(struct shade);
