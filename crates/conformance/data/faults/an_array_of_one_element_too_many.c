char most[1048577];
