char difference[2 - 3u == 4294967295u && 2 - 3u < 0 && sizeof(2 - 3u) == 4 ? 1 : -1];
