int k = ;
