char *a = "a
";