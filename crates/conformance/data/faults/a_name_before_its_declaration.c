int *early = &late;
int late;
