struct word { char bytes[4]; } w = "abc";
