enum { up, down };
enum { left, up };
