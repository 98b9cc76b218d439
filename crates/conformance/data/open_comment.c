int n; /* cut
