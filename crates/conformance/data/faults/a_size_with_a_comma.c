char row[(1L, 2)];
