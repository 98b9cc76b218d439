9a
