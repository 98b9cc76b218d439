struct shape { int x; };
enum shape s;
