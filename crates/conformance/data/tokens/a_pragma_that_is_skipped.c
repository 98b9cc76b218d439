# pragma " /* 
@