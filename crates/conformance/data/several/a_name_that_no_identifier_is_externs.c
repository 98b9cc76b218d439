tick
9a
