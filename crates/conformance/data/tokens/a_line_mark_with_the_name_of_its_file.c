# line 8 "f.h" 
 @