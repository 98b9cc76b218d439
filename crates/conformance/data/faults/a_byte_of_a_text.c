char c = "abc"[0];
