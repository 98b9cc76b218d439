int a;
 # 3
@