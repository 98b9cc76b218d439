void stop(void);
void *p = stop;
