char all[1048577];
