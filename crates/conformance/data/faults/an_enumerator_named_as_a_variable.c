int red;
enum { green, red };
