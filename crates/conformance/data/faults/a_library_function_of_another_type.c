long rand(void);
