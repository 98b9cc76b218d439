int row[] = "abc";
