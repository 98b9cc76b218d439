enum { get, free };
