int n;
int main(void);
