char word[3] = "abcd";
