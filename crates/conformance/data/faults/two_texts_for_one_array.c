char word[8] = {"ab", "cd"};
