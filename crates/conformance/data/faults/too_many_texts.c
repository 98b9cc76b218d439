char words[2][2] = {"ab", "cd", "ef"};
