char word[4] = ("abc");
