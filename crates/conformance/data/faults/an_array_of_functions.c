int steps[3](void);
