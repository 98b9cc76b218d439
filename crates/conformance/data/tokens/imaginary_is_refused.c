int a;
 _Imaginary b;