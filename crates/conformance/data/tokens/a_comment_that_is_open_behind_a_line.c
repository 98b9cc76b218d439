int a;
 /* 
