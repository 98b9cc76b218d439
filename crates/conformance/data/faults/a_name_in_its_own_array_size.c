int grid[sizeof grid];
