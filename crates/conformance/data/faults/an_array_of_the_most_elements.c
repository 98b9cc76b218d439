char most[1048576];
char told[sizeof most == 1048576 ? 1 : -1];
