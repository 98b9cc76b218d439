typedef static int count;
