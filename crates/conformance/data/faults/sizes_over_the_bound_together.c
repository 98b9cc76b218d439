char all[3][1024][512];
