char (*work)(void)[2];
