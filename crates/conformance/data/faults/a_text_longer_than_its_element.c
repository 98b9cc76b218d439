char words[2][3] = {"abc", {"abcd"}};
