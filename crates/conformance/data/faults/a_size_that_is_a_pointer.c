int row[(void *)0];
