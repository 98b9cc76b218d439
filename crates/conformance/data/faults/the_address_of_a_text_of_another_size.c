char (*whole)[2] = &"ab";
