typedef char row[1024];
row ok[1024], all[1025];
