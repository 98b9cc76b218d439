enum { least = -1, most = -1u };
