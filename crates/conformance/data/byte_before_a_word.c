union u;
int $;
