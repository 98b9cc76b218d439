struct pair { int a; };
enum kind { get };
struct pair enum kind n;
