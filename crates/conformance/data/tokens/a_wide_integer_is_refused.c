int a;
 __int128 b;